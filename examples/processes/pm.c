/* A process manager: a table of processes, chained from the newest to the oldest.
   Type 1 makes one and answers its number, 2 ends the process ARG0, 3 counts those that run. */
struct process {
  int running;
  int number;
  struct process *older;
};

struct process table[4];
struct process *newest;
int next_number;

void make(void);
void end(void);
void count(void);
void (*requests[3])(void) = { make, end, count };

void init(void) { next_number = 1; }

void make(void) {
  struct process *free_entry = table;
  while (free_entry < &table[4] && free_entry->running) { free_entry = free_entry + 1; }
  if (free_entry == &table[4]) { m_out.arg[0] = -1; return; }
  free_entry->running = 1;
  free_entry->number = next_number;
  free_entry->older = newest;
  newest = free_entry;
  next_number = next_number + 1;
  m_out.arg[0] = free_entry->number;
}

void end(void) {
  struct process *p = newest;
  struct process *newer = 0;
  while (p != 0 && p->number != m_in.arg[0]) { newer = p; p = p->older; }
  if (p == 0) { m_out.arg[0] = -1; return; }
  if (newer == 0) { newest = p->older; } else { newer->older = p->older; }
  p->running = 0;
  m_out.arg[0] = p->number;
}

void count(void) {
  struct process *p = newest;
  while (p != 0) { m_out.arg[0] = m_out.arg[0] + 1; p = p->older; }
}

void on_message(void) {
  m_out.type = m_in.type;
  requests[m_in.type - 1]();
  send(m_in.source);
}
