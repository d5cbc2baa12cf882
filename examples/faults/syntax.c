// syntax.c:4:1: syntax
int main(void) {
    return 1
}
