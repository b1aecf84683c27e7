class a {
public:
    ;
    int b;
protected:
private:
    int c;
    ;;
public: int d;
};
