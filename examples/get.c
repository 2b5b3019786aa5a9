// A field is read: one cell is needed.
struct node {
  int data;
  struct node *next;
};

int get(struct node *x) {
  return x->data;
}
