// A list is walked to its end.
struct node {
  int data;
  struct node *next;
};

void walk(struct node *x) {
  while (x) {
    x = x->next;
  }
}
