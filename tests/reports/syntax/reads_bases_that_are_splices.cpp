struct a { };
struct b : [: ^^a :] { };
struct c : public typename [: ^^a :], private ::b { };
