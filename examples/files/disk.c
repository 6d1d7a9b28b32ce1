/* A disk of 16 blocks. Type 1 reads the block ARG0, 2 writes ARG1 to it; ARG2 goes back as it came. */
int blocks[16];

void init(void) { }

void on_message(void) {
  m_out.type = m_in.type;
  m_out.arg[2] = m_in.arg[2];
  if (m_in.arg[0] < 0 || m_in.arg[0] >= 16) { m_out.type = -2; }
  else {
    if (m_in.type == 2) { blocks[m_in.arg[0]] = m_in.arg[1]; }
    m_out.arg[1] = blocks[m_in.arg[0]];
  }
  send(m_in.source);
}
