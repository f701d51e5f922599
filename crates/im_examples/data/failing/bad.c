int main(void){return}
