/* A call that isn't there: the linker names it. */
int MPI_Comm_spawn();

int main(void) { return MPI_Comm_spawn(); }
