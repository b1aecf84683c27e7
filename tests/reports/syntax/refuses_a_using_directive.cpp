namespace a { int b; }
using namespace a;
