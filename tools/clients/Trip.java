// Sends, takes and shows messages by RabbitMQ's library for Java, for tools/try_trips.py: its words are those of trip_pika.py.
import com.rabbitmq.client.AMQP.BasicProperties;
import com.rabbitmq.client.Channel;
import com.rabbitmq.client.Connection;
import com.rabbitmq.client.ConnectionFactory;
import com.rabbitmq.client.Delivery;
import com.rabbitmq.client.GetResponse;
import com.rabbitmq.client.LongString;
import java.io.PrintStream;
import java.io.BufferedOutputStream;
import java.math.BigDecimal;
import java.nio.charset.StandardCharsets;
import java.nio.file.Files;
import java.nio.file.Paths;
import java.security.MessageDigest;
import java.time.Instant;
import java.util.Arrays;
import java.util.Collections;
import java.util.Date;
import java.util.HashSet;
import java.util.LinkedHashMap;
import java.util.List;
import java.util.Map;
import java.util.Set;
import java.util.TreeMap;
import java.util.concurrent.BlockingQueue;
import java.util.concurrent.LinkedBlockingQueue;
import java.util.concurrent.TimeUnit;

public class Trip {
    static Channel channel;
    static String queue;
    static final PrintStream out = new PrintStream(new BufferedOutputStream(System.out), false, StandardCharsets.UTF_8);

    static long nanoseconds() {
        Instant now = Instant.now();
        return now.getEpochSecond() * 1_000_000_000L + now.getNano();
    }

    interface Body {
        byte[] of(int i) throws Exception;
    }

    interface Properties {
        BasicProperties of(int i);
    }

    // Publishes with confirms; each is told by its number.
    static void confirmed(int count, Body body, Properties properties) throws Exception {
        TreeMap<Long, Boolean> open = new TreeMap<>();
        channel.confirmSelect();
        channel.addConfirmListener((tag, multiple) -> tell("ack", open, tag, multiple),
            (tag, multiple) -> tell("nack", open, tag, multiple));
        for (int i = 0; i < count; i++) {
            synchronized (open) {
                open.put(channel.getNextPublishSeqNo(), true);
            }
            channel.basicPublish("", queue, properties.of(i), body.of(i));
        }
        channel.waitForConfirms(600000);
    }

    static void tell(String word, TreeMap<Long, Boolean> open, long tag, boolean multiple) {
        long now = nanoseconds();
        synchronized (open) {
            while (multiple && !open.isEmpty() && open.firstKey() < tag) {
                out.println(word + " " + (open.pollFirstEntry().getKey() - 1) + " " + now);
            }
            if (open.remove(tag) != null) {
                out.println(word + " " + (tag - 1) + " " + now);
            }
        }
    }

    static BasicProperties numbered(int i) {
        Map<String, Object> headers = map("number", i, "text", "gr\u00f6\u00dfe " + i, "even", i % 2 == 0, "inner", map("number", i));
        return new BasicProperties.Builder().contentType("text/plain").contentEncoding("utf-8").headers(headers)
            .deliveryMode(1 + i % 2).priority(1 + i % 9).correlationId("c" + i).replyTo("answers").expiration("" + (86400000 + i))
            .messageId("m" + i).timestamp(new Date(1000L * (1700000000 + i))).type("t" + i).userId("guest").appId("shop").build();
    }

    static void send(String sizesFile, String poolFile) throws Exception {
        String[] sizes = Files.readString(Paths.get(sizesFile)).trim().split(" ");
        byte[] pool = Files.readAllBytes(Paths.get(poolFile));
        confirmed(sizes.length, i -> Arrays.copyOfRange(pool, i, i + Integer.parseInt(sizes[i])), Trip::numbered);
    }

    interface Act {
        boolean done(Delivery delivery) throws Exception;
    }

    // Calls act with what comes until it says that all is done, or nothing comes for half a minute.
    static void each(boolean noAck, Act act) throws Exception {
        BlockingQueue<Delivery> came = new LinkedBlockingQueue<>();
        String tag = channel.basicConsume(queue, noAck, (name, delivery) -> came.add(delivery), name -> { });
        while (true) {
            Delivery delivery = came.poll(30, TimeUnit.SECONDS);
            if (delivery == null) {
                out.println("quiet");
                break;
            }
            if (act.done(delivery)) {
                break;
            }
        }
        channel.basicCancel(tag);
    }

    static String hex(byte[] bytes) {
        StringBuilder text = new StringBuilder();
        for (byte b : bytes) {
            text.append(String.format("%02x", b));
        }
        return text.toString();
    }

    static void get(int count) throws Exception {
        MessageDigest hash = MessageDigest.getInstance("SHA-1");
        for (int i = 0; i < count; i++) {
            GetResponse got = channel.basicGet(queue, false);
            if (got == null) {
                out.println("empty");
                break;
            }
            int redelivered = got.getEnvelope().isRedeliver() ? 1 : 0;
            out.println(redelivered + " " + got.getProps().getMessageId() + " " + hex(hash.digest(got.getBody())));
            channel.basicAck(got.getEnvelope().getDeliveryTag(), false);
        }
    }

    static void take(String how, int count, int prefetch) throws Exception {
        Set<String> seen = new HashSet<>();
        int[] settled = {0};
        MessageDigest hash = MessageDigest.getInstance("SHA-1");
        channel.basicQos(prefetch);
        each(how.equals("none"), delivery -> {
            String name = delivery.getProperties().getMessageId();
            long tag = delivery.getEnvelope().getDeliveryTag();
            int redelivered = delivery.getEnvelope().isRedeliver() ? 1 : 0;
            out.println(redelivered + " " + name + " " + hex(hash.digest(delivery.getBody())));
            boolean again = !seen.add(name);
            if (!how.equals("requeue") || again) {
                settled[0]++;
            }
            if (how.equals("ack") || how.equals("requeue") && again) {
                channel.basicAck(tag, false);
            } else if (how.equals("multiple") && (settled[0] % 10 == 0 || settled[0] == count)) {
                channel.basicAck(tag, true);
            } else if (how.equals("reject")) {
                channel.basicReject(tag, false);
            } else if (how.equals("requeue")) {
                channel.basicNack(tag, false, true);
            }
            return settled[0] == count;
        });
    }

    // a map of names and values, one after another
    static Map<String, Object> map(Object... words) {
        Map<String, Object> result = new LinkedHashMap<>();
        for (int i = 0; i < words.length; i += 2) {
            result.put((String) words[i], words[i + 1]);
        }
        return result;
    }

    static void rich() throws Exception {
        Map<String, Object> headers = map("yes", true, "no", false, "int8", (byte) -5, "int", -70000,
            "long", -(1L << 40), "float", 1.5f, "double", -2.25, "text", "gr\u00f6\u00dfe \u20ac",
            "time", new Date(1709208000000L), "nothing", null, "bytes", new byte[] {0, -128, -1},
            "table", map("a", 1, "b", map("c", "deep")),
            "list", Arrays.asList(1, "two", true, null, Arrays.asList(3), map("d", 4)));
        confirmed(1, i -> "rich".getBytes(), i -> new BasicProperties.Builder().contentType("text/plain")
            .contentEncoding("utf-8").headers(headers).deliveryMode(2).priority(5).correlationId("c-17").replyTo("answers")
            .expiration("600000").messageId("m-17").timestamp(new Date(1700000000000L)).type("order.new").userId("guest")
            .appId("shop").clusterId("west").build());
    }

    // a kind of headers that py-amqp can't read
    static void rare() throws Exception {
        confirmed(1, i -> "rare".getBytes(), i -> new BasicProperties.Builder().headers(map("short", (short) -300)).build());
    }

    static void decimal() throws Exception {
        confirmed(1, i -> "decimal".getBytes(),
            i -> new BasicProperties.Builder().headers(map("decimal", new BigDecimal("3.14"))).build());
    }

    static String quoted(String text) {
        return "\"" + text.replace("\\", "\\\\").replace("\"", "\\\"") + "\"";
    }

    // A value with its kind, as the programs of all libraries write it.
    static String told(Object value) {
        if (value instanceof LongString || value instanceof String) {
            return quoted(value.toString());
        } else if (value instanceof byte[]) {
            return "{\"bytes\": " + quoted(hex((byte[]) value)) + "}";
        } else if (value instanceof Float || value instanceof Double) {
            return "{\"float\": " + quoted(value.toString()) + "}";
        } else if (value instanceof Date) {
            return "{\"time\": " + ((Date) value).getTime() / 1000 + "}";
        } else if (value instanceof BigDecimal) {
            return "{\"decimal\": " + quoted(value.toString()) + "}";
        } else if (value instanceof Map) {
            StringBuilder text = new StringBuilder();
            for (Map.Entry<?, ?> entry : ((Map<?, ?>) value).entrySet()) {
                text.append(text.length() > 0 ? ", " : "").append(quoted((String) entry.getKey())).append(": ")
                    .append(told(entry.getValue()));
            }
            return "{\"table\": {" + text + "}}";
        } else if (value instanceof List) {
            StringBuilder text = new StringBuilder();
            for (Object inner : (List<?>) value) {
                text.append(text.length() > 0 ? ", " : "").append(told(inner));
            }
            return "[" + text + "]";
        }
        return String.valueOf(value);
    }

    static void show(int count) throws Exception {
        int[] taken = {0};
        each(false, delivery -> {
            BasicProperties p = delivery.getProperties();
            Map<String, Object> said = map("content_type", p.getContentType(), "content_encoding", p.getContentEncoding(),
                "delivery_mode", p.getDeliveryMode(), "priority", p.getPriority(), "correlation_id", p.getCorrelationId(),
                "reply_to", p.getReplyTo(), "expiration", p.getExpiration(), "message_id", p.getMessageId(),
                "timestamp", p.getTimestamp() == null ? null : p.getTimestamp().getTime() / 1000, "type", p.getType(),
                "user_id", p.getUserId(), "app_id", p.getAppId(), "cluster_id", p.getClusterId(), "headers", p.getHeaders(),
                "body", new String(delivery.getBody()));
            StringBuilder text = new StringBuilder();
            for (Map.Entry<String, Object> entry : said.entrySet()) {
                if (entry.getValue() != null) {
                    text.append(text.length() > 0 ? ", " : "").append(quoted(entry.getKey())).append(": ")
                        .append(told(entry.getValue()));
                }
            }
            out.println("{" + text + "}");
            channel.basicAck(delivery.getEnvelope().getDeliveryTag(), false);
            return ++taken[0] == count;
        });
    }

    public static void main(String[] words) throws Exception {
        ConnectionFactory factory = new ConnectionFactory();
        factory.setHost("127.0.0.1");
        factory.setPort(Integer.parseInt(words[0]));
        factory.setRequestedHeartbeat(0);
        factory.setAutomaticRecoveryEnabled(false);
        queue = words[2];
        try (Connection connection = factory.newConnection()) {
            channel = connection.createChannel();
            switch (words[1]) {
                case "send":
                    send(words[3], words[4]);
                    break;
                case "take":
                    take(words[3], Integer.parseInt(words[4]), Integer.parseInt(words[5]));
                    break;
                case "get":
                    get(Integer.parseInt(words[3]));
                    break;
                case "rich":
                    rich();
                    break;
                case "rare":
                    rare();
                    break;
                case "decimal":
                    decimal();
                    break;
                case "show":
                    show(Integer.parseInt(words[3]));
                    break;
            }
            channel.close();
        } catch (Exception error) {
            out.println("error " + error + (error.getCause() == null ? "" : ", caused by " + error.getCause()));
        }
        out.flush();
    }
}
