constexpr char a = '\400';
