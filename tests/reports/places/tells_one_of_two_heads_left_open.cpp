namespace a {
namespace b {
int c;
}
