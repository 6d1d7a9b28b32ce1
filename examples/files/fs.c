/* A file server over a disk: file F is the block 2 * F. Type 1 reads the file ARG0, 2 writes ARG1 to it.
   Each request waits on the heap until the disk has answered; its ticket goes with the message. */
struct request {
  int client;
  int ticket;
  struct request *next;
};

struct request *waiting;
int next_ticket;

void init(void) { }

void ask(void) {
  struct request *r = malloc(sizeof(struct request));
  r->client = m_in.source;
  r->ticket = next_ticket;
  r->next = waiting;
  waiting = r;
  next_ticket = next_ticket + 1;
  m_out.type = m_in.type;
  m_out.arg[0] = 2 * m_in.arg[0];
  m_out.arg[1] = m_in.arg[1];
  m_out.arg[2] = r->ticket;
  send(2);
}

void answer(void) {
  struct request *r = waiting;
  struct request *before = 0;
  while (r != 0 && r->ticket != m_in.arg[2]) { before = r; r = r->next; }
  if (r == 0) { return; }
  if (before == 0) { waiting = r->next; } else { before->next = r->next; }
  m_out.type = m_in.type;
  m_out.arg[0] = m_in.arg[1];
  send(r->client);
  free(r);
}

void on_message(void) {
  if (m_in.source == 2) { answer(); } else { ask(); }
}
