// Sends to and takes from a container of AMQP 1.0 by Qpid Proton, for tools/measure_load.py: port, address, `send` or `take`,
// how many messages, bytes of each, and how many may be unsettled, or the link's credit. It prints the seconds from the link's
// attach to the last of them, how many were accepted or came, and how many were settled otherwise or came with another size.
#include <proton/connection.h>
#include <proton/delivery.h>
#include <proton/link.h>
#include <proton/message.h>
#include <proton/proactor.h>
#include <proton/sasl.h>
#include <proton/session.h>
#include <proton/terminus.h>
#include <proton/transport.h>
#include <stdint.h>
#include <stdio.h>
#include <stdlib.h>
#include <string.h>
#include <time.h>

static const char *address;
static int sends;
static unsigned long count, window, begun, fine, wrong;
static size_t size;
static char body[1 << 21];
static size_t room;
static double began, took;

static double now(void) {
  struct timespec t;
  clock_gettime(CLOCK_MONOTONIC, &t);
  return t.tv_sec + t.tv_nsec / 1e9;
}

// The message that is sent each time: one data section.
static void encode(void) {
  char *payload = calloc(1, size + 1);
  pn_message_t *message = pn_message();
  pn_message_set_inferred(message, true);
  pn_data_put_binary(pn_message_body(message), pn_bytes(size, payload));
  room = sizeof body;
  if (pn_message_encode(message, body, &room)) exit(1);
  pn_message_free(message);
  free(payload);
}

static void send_some(pn_link_t *link) {
  while (begun < count && begun - fine - wrong < window && pn_link_credit(link) > 0) {
    pn_delivery(link, pn_dtag((char *)&begun, sizeof begun));
    pn_link_send(link, body, room);
    pn_link_advance(link);
    begun++;
  }
}

static void start(pn_connection_t *connection) {
  pn_connection_set_container(connection, "load");
  pn_connection_open(connection);
  pn_session_t *session = pn_session(connection);
  pn_session_open(session);
  pn_link_t *link = sends ? pn_sender(session, "load") : pn_receiver(session, "load");
  pn_terminus_set_address(sends ? pn_link_target(link) : pn_link_source(link), address);
  pn_link_open(link);
  if (!sends) pn_link_flow(link, window);
}

static void settled(pn_link_t *link, pn_delivery_t *delivery) {
  if (!pn_delivery_updated(delivery) || !pn_delivery_remote_state(delivery)) return;
  *(pn_delivery_remote_state(delivery) == PN_ACCEPTED ? &fine : &wrong) += 1;
  pn_delivery_settle(delivery);
  send_some(link);
}

static void came(pn_link_t *link, pn_delivery_t *delivery) {
  if (!pn_delivery_readable(delivery) || pn_delivery_partial(delivery)) return;
  ssize_t got = pn_link_recv(link, body, sizeof body);
  *(got >= (ssize_t)size && got < (ssize_t)size + 256 ? &fine : &wrong) += 1;
  pn_link_advance(link);
  pn_delivery_update(delivery, PN_ACCEPTED);
  pn_delivery_settle(delivery);
  if (2 * pn_link_credit(link) <= (int)window) pn_link_flow(link, window - pn_link_credit(link));
}

static void handle(pn_event_t *event) {
  pn_delivery_t *delivery = pn_event_delivery(event);
  switch (pn_event_type(event)) {
  case PN_CONNECTION_INIT: return start(pn_event_connection(event));
  case PN_LINK_REMOTE_OPEN: began = now(); return;
  case PN_LINK_FLOW: return sends ? send_some(pn_event_link(event)) : (void)0;
  case PN_DELIVERY:
    if (sends) settled(pn_delivery_link(delivery), delivery);
    else came(pn_delivery_link(delivery), delivery);
    if (fine + wrong == count && !took) {
      took = now() - began;
      pn_connection_close(pn_event_connection(event));
    }
    return;
  case PN_TRANSPORT_CLOSED:
    printf("%.6f %lu %lu\n", took, fine, wrong);
    exit(fine + wrong == count ? 0 : 1);
  default: return;
  }
}

int main(int argc, char **argv) {
  if (argc != 7) return 2;
  address = argv[2];
  sends = !strcmp(argv[3], "send");
  count = strtoul(argv[4], 0, 10);
  size = strtoul(argv[5], 0, 10);
  window = strtoul(argv[6], 0, 10);
  encode();
  pn_proactor_t *proactor = pn_proactor();
  pn_connection_t *connection = pn_connection();
  pn_connection_set_user(connection, "anonymous");
  pn_transport_t *transport = pn_transport();
  pn_sasl_allowed_mechs(pn_sasl(transport), "ANONYMOUS");
  char at[PN_MAX_ADDR];
  pn_proactor_addr(at, sizeof at, "127.0.0.1", argv[1]);
  pn_proactor_connect2(proactor, connection, transport, at);
  for (;;) {
    pn_event_batch_t *batch = pn_proactor_wait(proactor);
    for (pn_event_t *event; (event = pn_event_batch_next(batch));) handle(event);
    pn_proactor_done(proactor, batch);
  }
}
