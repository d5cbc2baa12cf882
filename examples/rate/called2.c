#include "dsu.h"
int rate(void) { return 10000; }
void print_total(void) {
  printf("begin\n");
  dsu_update();
  printf("%d\n", 100 * rate() / 1000);
}
void total(void) { dsu_tx { print_total(); } }
int main(void) { total(); return 0; }
