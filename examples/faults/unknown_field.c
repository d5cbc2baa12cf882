// unknown_field.c:5:15: unknown field
struct point { int x; int y; };
int main(void) {
    struct point *p = calloc(1, sizeof(struct point));
    return p->z;
}
