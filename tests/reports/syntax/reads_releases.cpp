void f(int* a, int* b, int** c) {
    delete a;
    delete[] b;
    delete [ ] *c;
    delete c[0];
    delete (b);
}
