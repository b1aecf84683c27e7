int a;
extern "C" int b();
