int main(void) {
    int a[3];
    int i = __any_int();
    if (i >= 0 && i <= 3)
        a[i] = 1; /* <script>alert("&amp;")</script> */
    return 0;
}
