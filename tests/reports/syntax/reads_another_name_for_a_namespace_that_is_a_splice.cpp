namespace a { }
namespace b = [: ^^a :];
