// Publishes messages of many kinds by RabbitMQ's library for Java, for tools/record_messages.py:
// port.
import com.rabbitmq.client.AMQP.BasicProperties;
import com.rabbitmq.client.Channel;
import com.rabbitmq.client.Connection;
import com.rabbitmq.client.ConnectionFactory;
import com.rabbitmq.client.MessageProperties;
import java.nio.charset.StandardCharsets;
import java.util.Arrays;
import java.util.Collections;
import java.util.Date;
import java.util.LinkedHashMap;
import java.util.Map;

public class Messages {
    static final Date NOON = new Date(1709208000123L);
    static Channel channel;

    static BasicProperties.Builder with() {
        return new BasicProperties.Builder();
    }

    // a map of names and values, one after another
    static Map<String, Object> map(Object... words) {
        Map<String, Object> out = new LinkedHashMap<>();
        for (int i = 0; i < words.length; i += 2) {
            out.put((String) words[i], words[i + 1]);
        }
        return out;
    }

    static String times(String text, int count) {
        return String.join("", Collections.nCopies(count, text));
    }

    static void publish(String exchange, String key, String body, BasicProperties properties)
        throws Exception {
        channel.basicPublish(exchange, key, properties, body.getBytes(StandardCharsets.UTF_8));
    }

    static void headers(String body, Object... words) throws Exception {
        publish("", "q", body, with().headers(map(words)).build());
    }

    static void properties() throws Exception {
        publish("", "q", "", null);
        publish("", "q", "basic", MessageProperties.BASIC);
        publish("", "q", "minimal", MessageProperties.MINIMAL_BASIC);
        publish("", "q", "persistent", MessageProperties.MINIMAL_PERSISTENT_BASIC);
        publish("amq.direct", "text", "persistent text", MessageProperties.PERSISTENT_TEXT_PLAIN);
        publish("amq.topic", "a.b.c", "text", MessageProperties.TEXT_PLAIN);
        publish("", "", "no key", with().contentType("text/plain").build());
        publish("orders", "new.eu", "{\"id\": 17}", with().contentType("application/json")
            .contentEncoding("utf-8").headers(map("tries", 1)).deliveryMode(2).priority(5)
            .correlationId("c-17").replyTo("answers").expiration("60000").messageId("m-17")
            .timestamp(new Date(1700000000000L)).type("order.new").userId("guest").appId("shop")
            .clusterId("west").build());
        publish("", "q", "priorities", with().priority(0).deliveryMode(1).build());
        publish("", "q", "priorities", with().priority(255).build());
        publish("", "q", "expires at once", with().expiration("0").build());
        publish("", "q", "expires late", with().expiration("4294967295").build());
        publish("", "q", "the epoch", with().timestamp(new Date(0)).build());
        publish("", "q", "a part of a second is left out", with().timestamp(NOON).build());
        publish("gr\u00F6\u00DFe", "schl\u00FCssel.\u20AC", "names past ASCII",
            with().messageId("\uD834\uDD1E").type("\u20AC").build());
        publish("", times("k", 255), "long texts",
            with().messageId(times("m", 255)).appId(times("a", 255)).build());
        publish("", "q", "empty texts", with().contentType("").contentEncoding("").correlationId("")
            .replyTo("").messageId("").type("").userId("").appId("").clusterId("").build());
        publish("", "q", "an answer", with().correlationId("7f8e2c1a-52f7-4f39-9d1b-0a8f6f3c2f11")
            .deliveryMode(1).build());
        publish("", "q", times("x", 6000), with().messageId("two frames").build());
    }

    static void tables() throws Exception {
        headers("no headers inside");
        headers("text", "text", "value", "empty", "", "euro", "\u20AC");
        headers("integers", "byte", (byte) -128, "short", (short) -32768, "int", Integer.MIN_VALUE,
            "long", Long.MIN_VALUE);
        headers("and the greatest", "byte", (byte) 127, "short", (short) 32767,
            "int", Integer.MAX_VALUE, "long", Long.MAX_VALUE);
        headers("floats", "float", 1.5f, "double", -2.25, "nan", Double.NaN,
            "endless", Float.NEGATIVE_INFINITY, "zero", -0.0);
        headers("flags", "yes", true, "no", false, "nothing", null);
        headers("bytes", "some", new byte[] {0, -128, -1}, "none", new byte[0]);
        headers("times", "noon", NOON, "epoch", new Date(0));
        headers("lists", "empty", Arrays.asList(),
            "mixed", Arrays.asList(1, "two", 3L, null, true, NOON, 0.5f));
        headers("arrays", "inner", new Object[] {new Object[] {1}, new Object[] {new Object[0]}});
        headers("tables", "empty", map(),
            "inner", map("a", 1, "b", map("c", map("d", "deep"))));
        Map<String, Object> death = map("count", 2L, "reason", "rejected", "queue", "orders.new",
            "time", NOON, "exchange", "orders", "routing-keys", Arrays.asList("new.eu", "new"));
        headers("tables in lists", "x-death", Arrays.asList(death, death),
            "x-first-death-reason", "rejected");
        headers("a nested one first", "a", Arrays.asList(1, 2), "b", "plain", "c", map(), "d", 4);
        headers("names", "", 1, times("n", 255), 2, "x-opt-mqtt", 3, "x-opt-091", 4,
            "gr\u00F6\u00DFe", 5);
        publish("", "q", "spring", with().contentType("application/x-java-serialized-object")
            .deliveryMode(2).priority(0).headers(map("__TypeId__", "com.example.Order",
            "x-delay", 5000, "spring_listener_return_correlation", "5c1d")).build());
    }

    public static void main(String[] words) throws Exception {
        ConnectionFactory factory = new ConnectionFactory();
        factory.setHost("127.0.0.1");
        factory.setPort(Integer.parseInt(words[0]));
        factory.setRequestedHeartbeat(0);
        try (Connection connection = factory.newConnection()) {
            channel = connection.createChannel();
            channel.queueDeclare("q", true, false, false, null);
            channel.confirmSelect();
            properties();
            tables();
            channel.waitForConfirmsOrDie(60000);
            channel.close();
        }
    }
}
