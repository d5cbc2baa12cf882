// bad_printf_format.c:3:12: bad printf format
int main(void) {
    printf("%d\n", 1L);
    return 0;
}
