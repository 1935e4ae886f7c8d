/* The sums of the rows of a matrix. The inner loop goes one column too far. */
int matrix[3][4] = {
    { 1, 2, 3, 0 },
    { 4, 5, 6, 0 },
    { 7, 8, 9, 0 }
};

int sum_of(int row) {
    int sum = 0;
    int column;
    for (column = 0; column <= 4; column++)
        sum += matrix[row][column];
    return sum;
}

void show(int number) {
    if (number > 9)
        show(number / 10);
    putchar('0' + number % 10);
}

int main(void) {
    int row;
    for (row = 0; row < 3; row++) {
        show(sum_of(row));
        putchar('\n');
    }
    return 0;
}
