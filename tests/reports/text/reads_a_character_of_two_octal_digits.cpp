constexpr char a = '\61';
