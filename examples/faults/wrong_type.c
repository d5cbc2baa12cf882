// wrong_type.c:5:16: wrong type
struct point { int x; int y; };
int main(void) {
    struct point *p = calloc(1, sizeof(struct point));
    return 1 + p;
}
