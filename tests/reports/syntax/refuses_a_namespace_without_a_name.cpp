int a;
namespace { int b; }
