#include "dsu.h"
int rate(void) { return 10000; }
void total(void) {
  dsu_tx {
    printf("begin\n");
    dsu_update();
    printf("%d\n", 100 * rate() / 1000);
  }
}
int main(void) { total(); return 0; }
