#include "dsu.h"
int rate(void) { return 10; }
void print_total(void) {
  printf("begin\n");
  dsu_update();
  printf("%d\n", 100 * rate());
}
void total(void) { dsu_tx { print_total(); } }
int main(void) { total(); return 0; }
