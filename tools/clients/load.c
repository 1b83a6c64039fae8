// Publishes and consumes under load by rabbitmq-c, for tools/measure_load.py, with the words and the lines of load.go.
#include <amqp.h>
#include <amqp_tcp_socket.h>
#include <stdio.h>
#include <stdlib.h>
#include <string.h>
#include <sys/resource.h>
#include <time.h>

static amqp_connection_state_t connection;
static amqp_bytes_t queue;
static unsigned long total, limit;
static size_t size;

typedef struct {
  unsigned long published, answered, acked, nacked;
} counts_t;

static void check(const char *what, int status) {
  if (status == AMQP_STATUS_OK) return;
  fprintf(stderr, "%s: %s\n", what, amqp_error_string2(status));
  exit(1);
}

static void check_reply(const char *what, amqp_rpc_reply_t reply) {
  if (reply.reply_type == AMQP_RESPONSE_NORMAL) return;
  fprintf(stderr, "%s: %s\n", what, reply.library_error ? amqp_error_string2(reply.library_error) : "refused");
  exit(1);
}

static double now(void) {
  struct timespec t;
  clock_gettime(CLOCK_MONOTONIC, &t);
  return t.tv_sec + t.tv_nsec / 1e9;
}

static double processor_seconds(void) {
  struct rusage used;
  getrusage(RUSAGE_SELF, &used);
  return used.ru_utime.tv_sec + used.ru_utime.tv_usec / 1e6 + used.ru_stime.tv_sec + used.ru_stime.tv_usec / 1e6;
}

// A number as eight bytes.
static void spell(unsigned long number, char *bytes) {
  for (int i = 0; i < 8; i++) bytes[i] = number >> (56 - 8 * i);
}

// An ack or a nack: with `multiple` it tells of all that have no answer, up to its tag. Both peers confirm in rising order.
static void count(counts_t *c, unsigned long tag, int multiple, unsigned long *kind) {
  unsigned long told = multiple ? tag - c->answered : 1;
  if (tag != c->answered + told) {
    fprintf(stderr, "confirm %lu behind %lu\n", tag, c->answered);
    exit(1);
  }
  c->answered += told;
  *kind += told;
}

static void read_confirm(counts_t *c) {
  amqp_frame_t frame;
  amqp_maybe_release_buffers(connection);
  check("a confirm", amqp_simple_wait_frame(connection, &frame));
  if (frame.frame_type != AMQP_FRAME_METHOD) return;
  if (frame.payload.method.id == AMQP_BASIC_ACK_METHOD) {
    amqp_basic_ack_t *ack = frame.payload.method.decoded;
    count(c, ack->delivery_tag, ack->multiple, &c->acked);
  } else if (frame.payload.method.id == AMQP_BASIC_NACK_METHOD) {
    amqp_basic_nack_t *nack = frame.payload.method.decoded;
    count(c, nack->delivery_tag, nack->multiple, &c->nacked);
  } else {
    fprintf(stderr, "method 0x%08X in place of a confirm\n", frame.payload.method.id);
    exit(1);
  }
}

static void publish(void) {
  amqp_confirm_select(connection, 1);
  check_reply("confirms", amqp_get_rpc_reply(connection));
  amqp_bytes_t body = amqp_bytes_malloc(size ? size : 1);
  memset(body.bytes, 'x', size);
  body.len = size;
  counts_t c = {0, 0, 0, 0};
  double began = now();
  while (c.answered < total) {
    while (c.published < total && c.published - c.answered < limit) {
      if (size >= 8) spell(c.published, body.bytes);
      check("a publish", amqp_basic_publish(connection, 1, amqp_empty_bytes, queue, 0, 0, NULL, body));
      c.published++;
    }
    read_confirm(&c);
  }
  printf("%.6f %lu %lu", now() - began, c.acked, c.nacked);
}

static int is_next(const amqp_envelope_t *delivery, unsigned long place) {
  char number[8];
  spell(place, number);
  amqp_bytes_t body = delivery->message.body;
  return !delivery->redelivered && body.len == size && (size < 8 || !memcmp(body.bytes, number, 8));
}

static void settle(const char *how, unsigned long place, uint64_t tag) {
  unsigned long step = limit >= 5 ? limit / 5 : 1;
  if (!strcmp(how, "each")) check("an ack", amqp_basic_ack(connection, 1, tag, 0));
  else if (!strcmp(how, "multiple") && ((place + 1) % step == 0 || place + 1 == total))
    check("an ack", amqp_basic_ack(connection, 1, tag, 1));
}

static void consume(const char *how) {
  amqp_basic_qos(connection, 1, 0, limit, 0);
  check_reply("a prefetch", amqp_get_rpc_reply(connection));
  unsigned long wrong = 0;
  double began = now();
  amqp_basic_consume(connection, 1, queue, amqp_empty_bytes, 0, !strcmp(how, "none"), 0, amqp_empty_table);
  check_reply("a consumer", amqp_get_rpc_reply(connection));
  for (unsigned long place = 0; place < total; place++) {
    amqp_envelope_t delivery;
    amqp_maybe_release_buffers(connection);
    check_reply("a delivery", amqp_consume_message(connection, &delivery, NULL, 0));
    wrong += !is_next(&delivery, place);
    settle(how, place, delivery.delivery_tag);
    amqp_destroy_envelope(&delivery);
  }
  printf("%.6f %lu %lu", now() - began, total, wrong);
}

static void connect_to(int port) {
  connection = amqp_new_connection();
  check("connect", amqp_socket_open(amqp_tcp_socket_new(connection), "127.0.0.1", port));
  check_reply("login", amqp_login(connection, "/", 0, 131072, 0, AMQP_SASL_METHOD_PLAIN, "guest", "guest"));
  amqp_channel_open(connection, 1);
  check_reply("a channel", amqp_get_rpc_reply(connection));
}

int main(int argc, char **argv) {
  if (argc < 4) return 2;
  connect_to(atoi(argv[1]));
  queue = amqp_cstring_bytes(argv[2]);
  int passive = getenv("LOAD_PASSIVE") != NULL;
  amqp_queue_declare_ok_t *declared = amqp_queue_declare(connection, 1, queue, passive, 0, 0, 0, amqp_empty_table);
  check_reply("a queue", amqp_get_rpc_reply(connection));
  unsigned long found = declared->message_count;
  double before = processor_seconds();
  if (argc > 6) {
    total = strtoul(argv[4], 0, 10);
    size = strtoul(argv[5], 0, 10);
    limit = strtoul(argv[6], 0, 10);
  }
  if (argc == 7 && !strcmp(argv[3], "publish")) publish();
  else if (argc == 8 && !strcmp(argv[3], "consume")) consume(argv[7]);
  else printf("0 %lu 0", found);
  if (!strcmp(argv[3], "delete")) amqp_queue_delete(connection, 1, queue, 0, 0);
  printf(" %.6f\n", processor_seconds() - before);
  check_reply("close", amqp_connection_close(connection, AMQP_REPLY_SUCCESS));
  amqp_destroy_connection(connection);
  return 0;
}
