// A container of AMQP 1.0 that keeps up with a load, over Qpid Proton's proactor, for tools/measure_load.py:
//
//   gcc -O2 -o fast_container fast_container.c -lqpid-proton
//   fast_container --port PORT [--credit COUNT]
//
// An address is a queue of messages, kept as the bytes that came. What comes is accepted; of an address that begins with
// `discard` it isn't kept. Any login by PLAIN or ANONYMOUS is taken. Of each connection that ends it prints what it took,
// how many deliveries had each outcome, and how many messages its queues still have.
#include <proton/connection.h>
#include <proton/delivery.h>
#include <proton/link.h>
#include <proton/listener.h>
#include <proton/proactor.h>
#include <proton/sasl.h>
#include <proton/sasl_plugin.h>
#include <proton/session.h>
#include <proton/terminus.h>
#include <proton/transport.h>
#include <stdint.h>
#include <stdio.h>
#include <stdlib.h>
#include <string.h>

typedef struct message {
  struct message *next;
  size_t size;
  char bytes[];
} message_t;

typedef struct queue {
  struct queue *next;
  char *address;
  message_t *first, *last;
  unsigned long count;
} queue_t;

// What a link holds: its queue, and the part of a message that came so far.
typedef struct {
  queue_t *queue;
  char *part;
  size_t held, room;
} link_t;

typedef struct {
  unsigned long took, accepted, rejected, released, other;
} counts_t;

static queue_t *queues;
static int credit = 2000;
static uint64_t next_tag;

static void *allocated(size_t size) {
  void *found = calloc(1, size);
  if (!found) abort();
  return found;
}

static queue_t *queue_of(const char *address) {
  for (queue_t *queue = queues; queue; queue = queue->next)
    if (!strcmp(queue->address, address)) return queue;
  queue_t *queue = allocated(sizeof *queue);
  queue->address = strdup(address);
  queue->next = queues;
  return queues = queue;
}

static void put_last(queue_t *queue, message_t *message) {
  message->next = NULL;
  if (queue->first) queue->last->next = message;
  else queue->first = message;
  queue->last = message;
  queue->count++;
}

static void put_first(queue_t *queue, message_t *message) {
  message->next = queue->first;
  if (!queue->first) queue->last = message;
  queue->first = message;
  queue->count++;
}

static message_t *take_first(queue_t *queue) {
  message_t *message = queue->first;
  queue->first = message->next;
  queue->count--;
  return message;
}

// Sends what the queue has and the link has credit for.
static void dispatch(pn_link_t *link) {
  link_t *own = pn_link_get_context(link);
  while (own->queue->first && pn_link_credit(link) > 0) {
    message_t *message = take_first(own->queue);
    uint64_t tag = next_tag++;
    pn_delivery_t *delivery = pn_delivery(link, pn_dtag((char *)&tag, sizeof tag));
    pn_delivery_set_context(delivery, message);
    pn_link_send(link, message->bytes, message->size);
    pn_link_advance(link);
  }
  if (pn_link_get_drain(link)) pn_link_drained(link);
}

// Sends what a queue has to the consumers of one connection; there is one connection at a time.
static void dispatch_all(pn_connection_t *connection, queue_t *queue) {
  for (pn_link_t *link = pn_link_head(connection, PN_LOCAL_ACTIVE); link; link = pn_link_next(link, PN_LOCAL_ACTIVE))
    if (pn_link_is_sender(link) && ((link_t *)pn_link_get_context(link))->queue == queue) dispatch(link);
}

static void open_link(pn_link_t *link) {
  if (pn_link_state(link) & PN_LOCAL_ACTIVE) return;
  pn_terminus_copy(pn_link_source(link), pn_link_remote_source(link));
  pn_terminus_copy(pn_link_target(link), pn_link_remote_target(link));
  pn_link_set_snd_settle_mode(link, pn_link_remote_snd_settle_mode(link));
  pn_link_set_rcv_settle_mode(link, pn_link_remote_rcv_settle_mode(link));
  const char *address = pn_terminus_get_address(pn_link_is_sender(link) ? pn_link_source(link) : pn_link_target(link));
  link_t *own = allocated(sizeof *own);
  own->queue = queue_of(address ? address : "");
  pn_link_set_context(link, own);
  pn_link_open(link);
  if (pn_link_is_receiver(link)) pn_link_flow(link, credit);
}

// Puts what a consumer didn't settle back, in its order, once.
static void forget(pn_link_t *link) {
  link_t *own = pn_link_get_context(link);
  if (!own) return;
  message_t *back = NULL;
  for (pn_delivery_t *d = pn_link_is_sender(link) ? pn_unsettled_head(link) : NULL; d; d = pn_unsettled_next(d)) {
    message_t *message = pn_delivery_get_context(d);
    pn_delivery_set_context(d, NULL);
    if (message) {
      message->next = back;
      back = message;
    }
  }
  while (back) {
    message_t *next = back->next;
    put_first(own->queue, back);
    back = next;
  }
  free(own->part);
  free(own);
  pn_link_set_context(link, NULL);
}

static void read_part(pn_link_t *link, link_t *own, pn_delivery_t *delivery) {
  size_t pending = pn_delivery_pending(delivery);
  if (own->held + pending > own->room) {
    own->room = 2 * (own->held + pending);
    own->part = realloc(own->part, own->room);
    if (!own->part) abort();
  }
  ssize_t came = pn_link_recv(link, own->part + own->held, pending);
  if (came > 0) own->held += came;
}

static void publish_came(pn_link_t *link, pn_delivery_t *delivery, counts_t *counts) {
  link_t *own = pn_link_get_context(link);
  if (!own || !pn_delivery_readable(delivery)) return;
  read_part(link, own, delivery);
  if (pn_delivery_partial(delivery)) return;
  counts->took++;
  if (strncmp(own->queue->address, "discard", 7)) {
    message_t *message = allocated(sizeof *message + own->held);
    message->size = own->held;
    memcpy(message->bytes, own->part, own->held);
    put_last(own->queue, message);
    dispatch_all(pn_session_connection(pn_link_session(link)), own->queue);
  }
  own->held = 0;
  pn_link_advance(link);
  pn_delivery_update(delivery, PN_ACCEPTED);
  pn_delivery_settle(delivery);
  if (2 * pn_link_credit(link) <= credit) pn_link_flow(link, credit - pn_link_credit(link));
}

static void outcome_came(pn_link_t *link, pn_delivery_t *delivery, counts_t *counts) {
  link_t *own = pn_link_get_context(link);
  message_t *message = pn_delivery_get_context(delivery);
  uint64_t state = pn_delivery_remote_state(delivery);
  if (!own || !message || !pn_delivery_updated(delivery) || !(state || pn_delivery_settled(delivery))) return;
  pn_delivery_set_context(delivery, NULL);
  pn_delivery_settle(delivery);
  if (state == PN_RELEASED || state == PN_MODIFIED) {
    counts->released++;
    put_first(own->queue, message);
    dispatch(link);
    return;
  }
  *(state == PN_ACCEPTED ? &counts->accepted : state == PN_REJECTED ? &counts->rejected : &counts->other) += 1;
  free(message);
}

static void delivery_changed(pn_delivery_t *delivery) {
  pn_link_t *link = pn_delivery_link(delivery);
  counts_t *counts = pn_connection_get_context(pn_session_connection(pn_link_session(link)));
  if (pn_link_is_receiver(link)) publish_came(link, delivery, counts);
  else outcome_came(link, delivery, counts);
}

static void forget_links(pn_connection_t *connection, pn_session_t *session) {
  for (pn_link_t *link = pn_link_head(connection, 0); link; link = pn_link_next(link, 0))
    if (!session || pn_link_session(link) == session) forget(link);
}

static void tell(pn_connection_t *connection) {
  counts_t *counts = pn_connection_get_context(connection);
  if (!counts) return;
  forget_links(connection, NULL);
  unsigned long left = 0;
  for (queue_t *queue = queues; queue; queue = queue->next) left += queue->count;
  printf("took %lu accepted %lu rejected %lu released %lu other %lu left %lu\n", counts->took, counts->accepted,
         counts->rejected, counts->released, counts->other, left);
  fflush(stdout);
  free(counts);
  pn_connection_set_context(connection, NULL);
}

// SASL, as the library's packages lack a server's side of PLAIN.
static const char *mechanisms(pn_transport_t *t) { return "PLAIN ANONYMOUS"; }
static bool offers(pn_transport_t *t) { return pnx_sasl_set_desired_state(t, SASL_POSTED_MECHANISMS), true; }
static bool no_client(pn_transport_t *t) { return false; }
static void nothing(pn_transport_t *t) {}
static void login(pn_transport_t *t, const char *mechanism, const pn_bytes_t *response) {
  pnx_sasl_set_selected_mechanism(t, mechanism);
  pnx_sasl_set_succeeded(t, "guest", "guest");
  pnx_sasl_set_desired_state(t, SASL_POSTED_OUTCOME);
}
static void unasked(pn_transport_t *t, const pn_bytes_t *bytes) {}
static bool no_mechanism(pn_transport_t *t, const char *name) { return false; }
static ssize_t no_layer(pn_transport_t *t) { return 0; }
static ssize_t uncoded(pn_transport_t *t, pn_bytes_t in, pn_bytes_t *out) { return 0; }
static const pnx_sasl_implementation sasl = {nothing,      mechanisms, offers,  no_client, nothing,  login,  unasked,
                                             no_mechanism, unasked,    unasked, no_client, no_layer, uncoded, uncoded};

static void accept_one(pn_listener_t *listener) {
  pn_transport_t *transport = pn_transport();
  pn_transport_set_server(transport);
  pn_sasl(transport);
  pn_connection_t *connection = pn_connection();
  pn_connection_set_container(connection, "fast");
  pn_connection_set_context(connection, allocated(sizeof(counts_t)));
  pn_listener_accept2(listener, connection, transport);
}

static void link_left(pn_link_t *link, bool closed) {
  forget(link);
  if (closed) pn_link_close(link);
  else pn_link_detach(link);
}

static void handle(pn_event_t *event) {
  pn_connection_t *connection = pn_event_connection(event);
  switch (pn_event_type(event)) {
  case PN_LISTENER_ACCEPT: return accept_one(pn_event_listener(event));
  case PN_CONNECTION_REMOTE_OPEN: return pn_connection_open(connection);
  case PN_SESSION_REMOTE_OPEN: return pn_session_open(pn_event_session(event));
  case PN_LINK_REMOTE_OPEN: return open_link(pn_event_link(event));
  case PN_DELIVERY: return delivery_changed(pn_event_delivery(event));
  case PN_LINK_FLOW:
    if (pn_link_is_sender(pn_event_link(event)) && pn_link_get_context(pn_event_link(event))) dispatch(pn_event_link(event));
    return;
  case PN_LINK_REMOTE_DETACH: return link_left(pn_event_link(event), false);
  case PN_LINK_REMOTE_CLOSE: return link_left(pn_event_link(event), true);
  case PN_SESSION_REMOTE_CLOSE:
    forget_links(connection, pn_event_session(event));
    return pn_session_close(pn_event_session(event));
  case PN_CONNECTION_REMOTE_CLOSE: return pn_connection_close(connection);
  case PN_TRANSPORT_CLOSED: return tell(connection);
  case PN_LISTENER_CLOSE: exit(1);
  default: return;
  }
}

int main(int argc, char **argv) {
  const char *port = NULL;
  for (int i = 1; i + 1 < argc; i += 2) {
    if (!strcmp(argv[i], "--port")) port = argv[i + 1];
    else if (!strcmp(argv[i], "--credit")) credit = atoi(argv[i + 1]);
  }
  if (!port) return 2;
  pnx_sasl_set_default_implementation(&sasl);
  pn_proactor_t *proactor = pn_proactor();
  char address[PN_MAX_ADDR];
  pn_proactor_addr(address, sizeof address, "127.0.0.1", port);
  pn_proactor_listen(proactor, pn_listener(), address, 16);
  for (;;) {
    pn_event_batch_t *batch = pn_proactor_wait(proactor);
    for (pn_event_t *event; (event = pn_event_batch_next(batch));) handle(event);
    pn_proactor_done(proactor, batch);
  }
}
