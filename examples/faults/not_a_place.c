// not_a_place.c:3:5: not a place
int main(void) {
    1 = 2;
    return 0;
}
