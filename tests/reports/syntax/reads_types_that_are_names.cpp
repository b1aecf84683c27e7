struct a { };
namespace n { struct b { }; }
a c;
::a d;
n::b e;
const ::n::b* f;
