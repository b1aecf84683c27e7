int a = 1;
const int& b = static_cast<const int&>(a);
int c = static_cast<unsigned long>(a) + 2;
const void* d = static_cast<const void*>(&a);
