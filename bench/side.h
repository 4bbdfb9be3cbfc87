/* One side of the comparison of two libraries: its calls, the input of a row and what they answer, with residues and modulus of type RESIDUE. HAS_ROWS is 1 where settings
 * have a fifth number, that of rows, else 0, and HAS_CLAIMS where texts have claims. before.c includes this once for each kind; NAMED(x) makes a name of x that no other inclusion has. */

#if HAS_ROWS
#define SHAPE uint32_t, uint32_t, RESIDUE, uint32_t, uint32_t
#define SETTINGS in->d, in->l, in->q, in->b, 1
#define SMALLEST 2, 0, 17, 1, 1
#else
#define SHAPE uint32_t, uint32_t, RESIDUE, uint32_t
#define SETTINGS in->d, in->l, in->q, in->b
#define SMALLEST 2, 0, 17, 1
#endif
#if HAS_CLAIMS
#define AND_CLAIMS(...) , __VA_ARGS__
#else
#define AND_CLAIMS(...)
#endif
#define READ(type) const type *, size_t
#define WRITTEN(type) type *, size_t

struct NAMED(library) {
  uint32_t (*settings)(SHAPE);
  uint32_t (*commit)(SHAPE, READ(RESIDUE), READ(int32_t), WRITTEN(RESIDUE));
  uint32_t (*round)(SHAPE, uint32_t, READ(RESIDUE), READ(int32_t), WRITTEN(RESIDUE));
  uint32_t (*fold)(SHAPE, uint32_t, uint32_t, WRITTEN(RESIDUE), WRITTEN(int32_t));
  uint32_t (*end)(SHAPE, uint32_t, READ(int32_t), WRITTEN(int32_t));
  uint32_t (*open)(SHAPE, WRITTEN(RESIDUE), WRITTEN(int32_t), READ(uint32_t), WRITTEN(RESIDUE), WRITTEN(RESIDUE), WRITTEN(int32_t), uint32_t *);
  uint32_t (*session_start)(SHAPE, READ(RESIDUE), WRITTEN(RESIDUE));
  uint32_t (*session_round)(READ(RESIDUE), uint32_t, WRITTEN(RESIDUE), uint32_t *);
  uint32_t (*session_end)(READ(int32_t), READ(RESIDUE), WRITTEN(RESIDUE), uint32_t *);
  uint32_t (*check)(SHAPE, READ(RESIDUE), READ(int32_t), READ(RESIDUE), READ(RESIDUE), READ(uint32_t), uint32_t *);
  uint32_t (*judge)(SHAPE, READ(RESIDUE), uint32_t, READ(RESIDUE), READ(int64_t), uint32_t *);
  uint32_t (*extract)(SHAPE, READ(RESIDUE), READ(RESIDUE), READ(RESIDUE), READ(uint32_t), READ(int32_t), WRITTEN(int64_t));
  uint32_t (*read)(uint32_t, READ(uint8_t), WRITTEN(RESIDUE), WRITTEN(RESIDUE), WRITTEN(int32_t), WRITTEN(RESIDUE), WRITTEN(RESIDUE), WRITTEN(uint32_t), WRITTEN(int32_t)
                   AND_CLAIMS(WRITTEN(RESIDUE)));
  uint32_t (*write)(SHAPE, uint32_t, READ(RESIDUE), READ(int32_t), READ(RESIDUE), READ(RESIDUE), READ(uint32_t), READ(int32_t)
                    AND_CLAIMS(READ(RESIDUE)), WRITTEN(uint8_t), size_t *);
  uint32_t (*prove)(READ(uint8_t), WRITTEN(uint8_t), size_t *);
  uint32_t (*verify)(READ(uint8_t), uint32_t *);
};

struct NAMED(output) {
  uint32_t refusal, number, challenges[DEPTH];
  RESIDUE key[CELLS], rounds[3 * DEPTH * WIDTH], commitment[WIDTH], session[WOVENROCK_SESSION], settings[WOVENROCK_SETTINGS];
  int32_t message[CELLS], last[WIDTH];
  int64_t w[1024];
  uint8_t text[TEXT];
  size_t count;
};

struct NAMED(side) {
  struct NAMED(library) lib;
  uint32_t d, l, b;
  RESIDUE q;
  size_t session; /* numbers of a record */
  size_t n, text_length, record_length, nodes, ends;
  RESIDUE key[CELLS], commitment[WIDTH], rounds[3 * DEPTH * WIDTH], tree_rounds[4 * 3 * NODES];
  uint32_t challenges[DEPTH], tree_challenges[3 * NODES];
  int32_t message[CELLS], last[WIDTH], leaves[4 * LEAVES];
  int64_t w[1024];
  uint8_t text[TEXT], record[TEXT];
  struct NAMED(output) out;
};

static void NAMED(call)(void *side, enum call which) {
  struct NAMED(side) *in = side;
  struct NAMED(library) *lib = &in->lib;
  struct NAMED(output) *out = &in->out;
  RESIDUE none[1] = {0};
  int32_t no_last[1] = {0};
  switch (which) {
  case COMMIT:
    out->refusal = lib->commit(SETTINGS, in->key, in->n, in->message, in->n, out->commitment, in->d);
    return;
  case OPEN:
    /* A copy of both tables is folded in place, so the copying is in the time of both sides. */
    memcpy(out->key, in->key, in->n * sizeof *in->key);
    memcpy(out->message, in->message, in->n * sizeof *in->message);
    out->refusal = lib->open(SETTINGS, out->key, in->n, out->message, in->n, in->challenges, in->l, out->rounds, 3 * in->l * in->d, out->commitment, in->d, out->last,
                             in->d, &out->number);
    return;
  case CHECK:
    out->refusal = lib->check(SETTINGS, in->commitment, in->d, in->last, in->d, in->key, in->n, in->rounds, 3 * in->l * in->d, in->challenges, in->l, &out->number);
    return;
  case SESSION:
    out->refusal = lib->session_start(SETTINGS, in->commitment, in->d, out->session, in->session);
    for (uint32_t i = 0; i < in->l; i++)
      out->refusal |= lib->session_round(in->rounds + 3 * i * in->d, 3 * in->d, in->challenges[i], out->session, in->session, &out->number);
    out->refusal |= lib->session_end(in->last, in->d, in->key, in->n, out->session, in->session, &out->number);
    return;
  case JUDGE:
    out->refusal = lib->judge(SETTINGS, in->commitment, in->d, 1u << (2 * in->l), in->key, in->n, in->w, in->n, &out->number);
    return;
  case EXTRACT:
    out->refusal = lib->extract(SETTINGS, in->commitment, in->d, in->key, in->n, in->tree_rounds, 3 * in->nodes * in->d, in->tree_challenges, 3 * in->nodes, in->leaves,
                                in->ends * in->d, out->w, in->n);
    return;
  case READ_TEXT:
    out->refusal = lib->read(WITNESS, in->text, in->text_length, out->settings, 4 + HAS_ROWS, out->key, in->n, out->message, in->n, none, 0, none, 0,
                             out->challenges, in->l, no_last, 0 AND_CLAIMS(none, 0));
    return;
  case WRITE_TEXT:
    out->refusal = lib->write(SETTINGS, WITNESS, in->key, in->n, in->message, in->n, none, 0, none, 0, in->challenges, in->l, no_last, 0 AND_CLAIMS(none, 0), out->text, TEXT,
                              &out->count);
    return;
  case PROVE:
    out->refusal = lib->prove(in->text, in->text_length, out->text, TEXT, &out->count);
    return;
  case VERIFY:
    out->refusal = lib->verify(in->record, in->record_length, &out->number);
    return;
  }
}

/* The tree of an honest prover: three different challenges at each node, and both tables folded by each. */
static void NAMED(grow)(struct NAMED(side) *in, uint32_t done, size_t node, const RESIDUE *key, const int32_t *message) {
  RESIDUE *k = malloc(in->n * sizeof *k);
  int32_t *m = malloc(in->n * sizeof *m);
  if (done == in->l) {
    in->lib.end(SETTINGS, done, message, in->n, in->leaves + (node - in->nodes) * in->d, in->d);
  } else {
    in->lib.round(SETTINGS, done, key, in->n, message, in->n, in->tree_rounds + 3 * node * in->d, 3 * in->d);
    uint32_t first = draw(2 * in->d);
    for (uint32_t j = 0; j < 3; j++) {
      uint32_t e = (first + j) % (2 * in->d);
      in->tree_challenges[3 * node + j] = e;
      memcpy(k, key, in->n * sizeof *k);
      memcpy(m, message, in->n * sizeof *m);
      in->lib.fold(SETTINGS, done, e, k, in->n, m, in->n);
      NAMED(grow)(in, done + 1, 3 * node + 1 + j, k, m);
    }
  }
  free(k);
  free(m);
}

/* The same input on every side: it is drawn from the same start, and what else is in it is what the side's own library answers. */
static void NAMED(fill)(void *side, uint32_t d, uint32_t l, uint32_t q, uint32_t b, bool tree, bool texts) {
  struct NAMED(side) *in = side;
  struct NAMED(library) lib = in->lib;
  size_t session = in->session;
  memset(in, 0, sizeof *in);
  in->lib = lib, in->session = session, in->d = d, in->l = l, in->q = q, in->b = b, in->n = ((size_t)1 << l) * d, in->ends = 1;
  drawn = FIRST;
  for (size_t i = 0; i < in->n; i++) {
    in->key[i] = draw(q);
    in->message[i] = (int32_t)draw(2 * b + 1) - (int32_t)b;
  }
  for (uint32_t i = 0; i < l; i++) {
    in->challenges[i] = draw(2 * d);
    in->nodes = 3 * in->nodes + 1;
    in->ends *= 3;
  }
  NAMED(call)(in, OPEN);
  memcpy(in->commitment, in->out.commitment, sizeof in->commitment);
  memcpy(in->rounds, in->out.rounds, sizeof in->rounds);
  memcpy(in->last, in->out.last, sizeof in->last);
  if (tree) {
    NAMED(grow)(in, 0, 0, in->key, in->message);
    NAMED(call)(in, EXTRACT);
    memcpy(in->w, in->out.w, sizeof in->w);
  }
  if (texts) {
    int32_t none[1] = {0};
    NAMED(call)(in, WRITE_TEXT);
    memcpy(in->text, in->out.text, in->out.count);
    in->text_length = in->out.count;
#if HAS_CLAIMS
    /* The claims of a session after each round: a record has that of the first row from number 15 on. */
    RESIDUE claims[DEPTH * WIDTH], record[WOVENROCK_SESSION];
    uint32_t verdict;
    lib.session_start(SETTINGS, in->commitment, d, record, session);
    for (uint32_t i = 0; i < l; i++) {
      lib.session_round(in->rounds + 3 * i * d, 3 * d, in->challenges[i], record, session, &verdict);
      memcpy(claims + i * d, record + 15, d * sizeof *claims);
    }
#endif
    uint32_t parts = HAS_CLAIMS ? RECORD : OLD_RECORD;
    lib.write(SETTINGS, parts, in->key, in->n, none, 0, in->commitment, d, in->rounds, 3 * l * d, in->challenges, l, in->last, d AND_CLAIMS(claims, l * d), in->record, TEXT,
              &in->record_length);
  }
}

/* A number that stands for all that was answered, which is the same for sides of every kind: the number of rows and its line in a text are left out, the claims behind a
 * listing, and the room for the claims of other rows. */
static uint64_t NAMED(answer)(const void *side) {
  const struct NAMED(output) *out = &((const struct NAMED(side) *)side)->out;
  size_t line = 0, count = out->count;
#if HAS_CLAIMS
  const char *claims = count == 0 ? NULL : strstr((const char *)out->text, CLAIMS_LINE);
  count = claims ? (size_t)(claims - (const char *)out->text) + 1 : count;
#endif
#if HAS_ROWS
  const char *found = out->count == 0 ? NULL : strstr((const char *)out->text, ROWS_LINE);
  line = found ? (size_t)(found - (const char *)out->text) : 0;
#endif
  size_t skipped = line ? sizeof ROWS_LINE - 2 : 0;
  uint64_t sum = mix(mix(out->refusal, out->number), count - skipped);
#define MIX(table)                                            \
  for (size_t i = 0; i < sizeof table / sizeof *table; i++) \
    sum = mix(sum, (uint64_t)table[i])
  MIX(out->challenges);
  MIX(out->key);
  MIX(out->rounds);
  MIX(out->commitment);
  for (size_t i = 0; i < 4; i++)
    sum = mix(mix(sum, (uint64_t)out->session[i]), (uint64_t)out->settings[i]);
  for (size_t i = 4; i < OLD_SESSION; i++)
    sum = mix(sum, (uint64_t)out->session[i + HAS_ROWS]);
  MIX(out->message);
  MIX(out->last);
  MIX(out->w);
  for (size_t i = 0; i < TEXT - sizeof ROWS_LINE; i++) {
    size_t place = i < line || line == 0 ? i : i + skipped;
    sum = mix(sum, place < count ? out->text[place] : 0);
  }
#undef MIX
  return sum;
}

static void NAMED(clear)(void *side) {
  memset(&((struct NAMED(side) *)side)->out, 0, sizeof(struct NAMED(output)));
}

static void *NAMED(load)(void *file) {
  struct NAMED(side) *in = calloc(1, sizeof *in);
#define TAKE(name) in->lib.name = (__typeof__(in->lib.name))dlsym(file, "wovenrock_" #name);
  CALLS(TAKE)
#undef TAKE
  /* Before there were rows a record had 142 numbers, and up to version 0.3 it had 78; one of another length is refused. */
  RESIDUE commitment[2] = {0}, session[WOVENROCK_SESSION];
  size_t most = HAS_ROWS ? WOVENROCK_SESSION : OLD_SESSION;
  in->session = in->lib.session_start(SMALLEST, commitment, 2, session, most) == 0 ? most : 78;
  return in;
}

#undef SMALLEST
#undef SETTINGS
#undef SHAPE
#undef AND_CLAIMS
#undef READ
#undef WRITTEN
