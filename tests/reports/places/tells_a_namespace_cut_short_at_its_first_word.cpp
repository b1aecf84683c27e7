int a;
namespace