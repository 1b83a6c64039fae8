// A client by rabbitmq-c, for tools/try_container.py: it reads commands line by line and answers each in one line.
#include <amqp.h>
#include <amqp_tcp_socket.h>
#include <stdio.h>
#include <stdlib.h>
#include <string.h>
#include <time.h>

static amqp_connection_state_t connection;
static int channels;

// A close of the server's, in the words of the library's own tools.
static void say_close(amqp_method_t method) {
  if (method.id == AMQP_CONNECTION_CLOSE_METHOD) {
    amqp_connection_close_t *said = method.decoded;
    printf("error server connection error %u, message: %.*s\n", said->reply_code, (int)said->reply_text.len,
           (char *)said->reply_text.bytes);
  } else if (method.id == AMQP_CHANNEL_CLOSE_METHOD) {
    amqp_channel_close_t *said = method.decoded;
    printf("error server channel error %u, message: %.*s\n", said->reply_code, (int)said->reply_text.len,
           (char *)said->reply_text.bytes);
  } else {
    printf("error unexpected method 0x%08X\n", method.id);
  }
}

static void say_status(int status) {
  if (status == AMQP_STATUS_OK) {
    puts("done");
  } else {
    printf("error %s\n", amqp_error_string2(status));
  }
}

// What a call came to; whether it went well.
static int say_reply(amqp_rpc_reply_t reply, const char *well) {
  switch (reply.reply_type) {
    case AMQP_RESPONSE_NORMAL:
      if (well) puts(well);
      return 1;
    case AMQP_RESPONSE_SERVER_EXCEPTION:
      say_close(reply.reply);
      return 0;
    case AMQP_RESPONSE_LIBRARY_EXCEPTION:
      printf("error %s\n", amqp_error_string2(reply.library_error));
      return 0;
    default:
      puts("error no reply");
      return 0;
  }
}

static void say_agreed(void) {
  const amqp_table_t *properties = amqp_get_server_properties(connection);
  amqp_bytes_t product = amqp_empty_bytes;
  for (int k = 0; k < properties->num_entries; k++) {
    amqp_table_entry_t *entry = &properties->entries[k];
    if (entry->key.len == 7 && memcmp(entry->key.bytes, "product", 7) == 0 && entry->value.kind == AMQP_FIELD_KIND_UTF8) {
      product = entry->value.value.bytes;
    }
  }
  printf("open: '%.*s', channels to %d, frames to %d, heartbeat %d\n", (int)product.len, (char *)product.bytes,
         amqp_get_channel_max(connection), amqp_get_frame_max(connection), amqp_get_heartbeat(connection));
}

static void connect_to(int port, const char *vhost, const char *password, int heartbeat) {
  connection = amqp_new_connection();
  amqp_socket_t *socket = amqp_tcp_socket_new(connection);
  int status = amqp_socket_open(socket, "127.0.0.1", port);
  if (status != AMQP_STATUS_OK) {
    say_status(status);
    return;
  }
  amqp_rpc_reply_t reply =
      amqp_login(connection, vhost, 0, AMQP_DEFAULT_FRAME_SIZE, heartbeat, AMQP_SASL_METHOD_PLAIN, "guest", password);
  if (say_reply(reply, NULL)) say_agreed();
}

static double now(void) {
  struct timespec at;
  clock_gettime(CLOCK_MONOTONIC, &at);
  return at.tv_sec + at.tv_nsec / 1e9;
}

// Publishes a mandatory message with a confirm, and tells what comes of it.
static void publish(const char *key) {
  amqp_confirm_select(connection, channels);
  if (!say_reply(amqp_get_rpc_reply(connection), NULL)) return;
  amqp_basic_publish(connection, channels, amqp_empty_bytes, amqp_cstring_bytes(key), 1, 0, NULL, amqp_cstring_bytes("mandatory"));
  struct timeval most = {5, 0};
  amqp_frame_t frame;
  while (amqp_simple_wait_frame_noblock(connection, &frame, &most) == AMQP_STATUS_OK) {
    if (frame.frame_type != AMQP_FRAME_METHOD) continue;
    if (frame.payload.method.id == AMQP_BASIC_RETURN_METHOD) {
      amqp_basic_return_t *said = frame.payload.method.decoded;
      printf("returned %u %.*s, ", said->reply_code, (int)said->reply_text.len, (char *)said->reply_text.bytes);
    } else {
      puts(frame.payload.method.id == AMQP_BASIC_ACK_METHOD ? "acked" : "nacked");
      return;
    }
  }
  puts("nothing more");
}

static void consume(const char *queue) {
  amqp_basic_consume(connection, channels, amqp_cstring_bytes(queue), amqp_empty_bytes, 0, 0, 0, amqp_empty_table);
  say_reply(amqp_get_rpc_reply(connection), "done");
}

// Takes what comes until the time is over. The library sends heartbeats meanwhile.
static void hold(double seconds) {
  double until = now() + seconds;
  for (;;) {
    double left = until > now() ? until - now() : 0;
    struct timeval most = {(time_t)left, (suseconds_t)((left - (time_t)left) * 1e6)};
    amqp_frame_t frame;
    int status = amqp_simple_wait_frame_noblock(connection, &frame, &most);
    if (status == AMQP_STATUS_TIMEOUT) {
      puts("done");
      return;
    }
    if (status != AMQP_STATUS_OK) {
      say_status(status);
      return;
    }
    if (frame.frame_type == AMQP_FRAME_METHOD) {
      say_close(frame.payload.method);
      if (frame.payload.method.id == AMQP_CONNECTION_CLOSE_METHOD) {
        amqp_connection_close_ok_t answer = {0};
        amqp_send_method(connection, 0, AMQP_CONNECTION_CLOSE_OK_METHOD, &answer);
      }
      return;
    }
  }
}

static void act(const char *line) {
  int port, heartbeat;
  char vhost[256], password[256];
  double seconds;
  if (sscanf(line, "connect %d %255s %255s %d", &port, vhost, password, &heartbeat) == 4) {
    connect_to(port, vhost, password, heartbeat);
  } else if (strcmp(line, "channel\n") == 0) {
    amqp_channel_open(connection, ++channels);
    say_reply(amqp_get_rpc_reply(connection), "done");
  } else if (strcmp(line, "close-channel\n") == 0) {
    say_reply(amqp_channel_close(connection, channels--, AMQP_REPLY_SUCCESS), "done");
  } else if (sscanf(line, "publish %255s", vhost) == 1) {
    publish(vhost);
  } else if (sscanf(line, "consume %255s", vhost) == 1) {
    consume(vhost);
  } else if (sscanf(line, "hold %lf", &seconds) == 1) {
    hold(seconds);
  } else if (strcmp(line, "close\n") == 0) {
    say_reply(amqp_connection_close(connection, AMQP_REPLY_SUCCESS), "done");
  } else {
    puts("error no such command");
  }
}

int main(void) {
  char line[1024];
  while (fgets(line, sizeof line, stdin)) {
    act(line);
    fflush(stdout);
  }
  return 0;
}
