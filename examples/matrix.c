/* The product of two matrices of whole numbers, and what it has to be.
   No alarm: the run reads nothing, so each element is known, and so is each assertion. */
void __assert(int condition);

enum { SIZE = 2 };

static const int left[SIZE][SIZE] = {{1, 2}, {3, 4}};
static const int right[SIZE][SIZE] = {{5, 6}, {7, 8}};
static int product[SIZE][SIZE];

static int element(int row, int column) {
    int sum = 0, k;
    for (k = 0; k < SIZE; k++)
        sum += left[row][k] * right[k][column];
    return sum;
}

static void multiply(void) {
    int row, column;
    for (row = 0; row < SIZE; row++)
        for (column = 0; column < SIZE; column++)
            product[row][column] = element(row, column);
}

int main(void) {
    multiply();
    __assert(product[0][0] == 19 && product[0][1] == 22);
    __assert(product[1][0] == 43 && product[1][1] == 50);
    return 0;
}
