int a = 0x1F;
long b = 017L + 0b11ull;
char c = '\n';
const char* d = "text";
bool e = true || false;
int* f = nullptr;
int g = ((a));
int h = ::a;
struct s { s* i() { return this; } };
