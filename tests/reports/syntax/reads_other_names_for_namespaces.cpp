namespace a { namespace b { } }
namespace c = a;
namespace d = ::a::b;
