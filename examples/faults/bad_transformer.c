// bad_transformer.c:3:1: bad transformer
int main(void) { return 0; }
dsu_transform total = old + 1;
