// leaves_a_transaction.c:4:9: leaves a transaction
int main(void) {
    dsu_tx {
        return 0;
    }
}
