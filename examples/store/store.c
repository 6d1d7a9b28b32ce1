/* A store of numbers by key, as a list on the heap. Type 1 puts ARG1 under the key ARG0, 2 gets it, 3 removes it.
   The answer has the value before. */
struct entry {
  int key;
  int value;
  struct entry *next;
};

struct entry *first;

void init(void) { }

struct entry *find(int key) {
  struct entry *e = first;
  while (e != 0 && e->key != key) { e = e->next; }
  return e;
}

void put(int key, int value) {
  struct entry *e = find(key);
  if (e == 0) {
    e = malloc(sizeof(struct entry));
    e->key = key;
    e->next = first;
    first = e;
  }
  m_out.arg[0] = e->value;
  e->value = value;
}

void get(int key) {
  struct entry *e = find(key);
  if (e != 0) { m_out.arg[0] = e->value; }
}

void remove(int key) {
  struct entry *e = find(key);
  struct entry *before = first;
  if (e == 0) { return; }
  m_out.arg[0] = e->value;
  if (e == first) { first = e->next; }
  else {
    while (before->next != e) { before = before->next; }
    before->next = e->next;
  }
  free(e);
}

void on_message(void) {
  m_out.type = m_in.type;
  if (m_in.type == 1) { put(m_in.arg[0], m_in.arg[1]); }
  else if (m_in.type == 2) { get(m_in.arg[0]); }
  else if (m_in.type == 3) { remove(m_in.arg[0]); }
  else { m_out.type = -2; }
  send(m_in.source);
}
