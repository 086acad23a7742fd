/* In the place of INMOS's header of this name: processes, each a thread. rack.c has the calls. */
typedef struct process Process;

Process *ProcAlloc(void (*function)(), int stack, int count, ...);
void ProcPar(Process *first, ...);
void ProcAllocClean(Process *process);
int ProcAlt(Channel *first, ...);
