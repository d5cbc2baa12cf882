#include "dsu.h"
int rate(void) { return 10; }
void total(void) {
  dsu_tx {
    printf("begin\n");
    dsu_update();
    printf("%d\n", 100 * rate());
  }
}
int main(void) { total(); return 0; }
