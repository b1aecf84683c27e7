# 0 "machine.cpp"
# 0 "<built-in>"
# 0 "<command-line>"
# 1 "/usr/include/stdc-predef.h" 1 3 4
# 0 "<command-line>" 2
# 1 "machine.cpp"
# 1 "machine.h" 1



enum class Register : unsigned char { ax, bx = (1 << (2)), cx, };
enum Mode { idle, busy, MODE_COUNT };
# 2 "machine.cpp" 2

class Machine
{
private:
 int m_registers[4];
 Mode m_mode{idle};

public:
 Machine() : m_registers{} {}
 explicit Machine( Mode mode ) noexcept : m_mode( mode ) {}
 ~Machine() {}

 int get( Register r ) const { return m_registers[ static_cast<int>( r ) ]; }
 void set( Register r, int value );
 static constexpr int count = (1 << (2));
};

Machine* make( Mode mode )
{
 Machine* result = new Machine( mode );
 if ( !result ) { return nullptr; }
 (*result).set( Register::ax, -1 );
 return result;
}
void drop( Machine* m ) { delete m; }
