// Procedures that begin by returning.
#include <stddef.h>

typedef struct node {
  int value;
  struct node *next;
} node;

/* no list at all */
node *none(void) {
  return NULL;
}

int same(int number) { return (number); }

void ignore(node *first, int count) {
}
