// A cell is made. Where malloc gives none, the first procedure says so, and the second writes all the same.
#include <stdlib.h>

typedef struct node {
  int data;
  struct node *next;
} node;

node *make(int data, node *next) {
  node *n = malloc(sizeof(node));
  if (n == NULL) return NULL;
  n->data = data;
  n->next = next;
  return n;
}

node *make_unchecked(int data) {
  node *n = malloc(sizeof(node));
  n->data = data;
  return n;
}
