// A client by RabbitMQ's library for Java, for tools/try_container.py: it reads commands line by line and answers each in one line.
import com.rabbitmq.client.Channel;
import com.rabbitmq.client.Connection;
import com.rabbitmq.client.ConnectionFactory;
import java.io.BufferedReader;
import java.io.InputStreamReader;
import java.util.ArrayDeque;
import java.util.concurrent.CountDownLatch;
import java.util.concurrent.TimeUnit;

public class Client {
    static Connection connection;
    static final ArrayDeque<Channel> channels = new ArrayDeque<>();
    static final CountDownLatch ended = new CountDownLatch(1);

    static String connect(String[] words) throws Exception {
        ConnectionFactory factory = new ConnectionFactory();
        factory.setHost("127.0.0.1");
        factory.setPort(Integer.parseInt(words[1]));
        factory.setVirtualHost(words[2]);
        factory.setUsername("guest");
        factory.setPassword(words[3]);
        factory.setRequestedHeartbeat(Integer.parseInt(words[4]));
        factory.setAutomaticRecoveryEnabled(false);
        factory.setConnectionTimeout(20000);
        factory.setHandshakeTimeout(20000);
        connection = factory.newConnection();
        connection.addShutdownListener(cause -> ended.countDown());
        return "open: '" + connection.getServerProperties().get("product") + "', channels to " + connection.getChannelMax()
            + ", frames to " + connection.getFrameMax() + ", heartbeat " + connection.getHeartbeat();
    }

    static String publish(String key) throws Exception {
        Channel channel = channels.peek();
        StringBuffer told = new StringBuffer();
        channel.addReturnListener((code, text, exchange, to, properties, body) -> told.append(", returned " + code + " " + text));
        channel.confirmSelect();
        channel.basicPublish("", key, true, null, "mandatory".getBytes());
        return "confirmed " + channel.waitForConfirms(5000) + told;
    }

    static String consume(String queue) throws Exception {
        channels.peek().basicConsume(queue, (tag, delivery) -> { }, tag -> { });
        return "done";
    }

    static String hold(String seconds) throws Exception {
        if (ended.await((long) (1000 * Double.parseDouble(seconds)), TimeUnit.MILLISECONDS)) {
            throw connection.getCloseReason();
        }
        return "done";
    }

    static String act(String[] words) throws Exception {
        switch (words[0]) {
            case "connect":
                return connect(words);
            case "channel":
                channels.push(connection.createChannel());
                return "done";
            case "close-channel":
                channels.pop().close();
                return "done";
            case "publish":
                return publish(words[1]);
            case "consume":
                return consume(words[1]);
            case "hold":
                return hold(words[1]);
            case "close":
                connection.close();
                return "done";
            default:
                throw new IllegalArgumentException("no such command");
        }
    }

    static String told(Throwable error) {
        String said = error.getClass().getSimpleName() + " " + error.getMessage();
        return error.getCause() == null ? said : said + ", caused by " + told(error.getCause());
    }

    public static void main(String[] arguments) throws Exception {
        BufferedReader lines = new BufferedReader(new InputStreamReader(System.in));
        for (String line = lines.readLine(); line != null; line = lines.readLine()) {
            String said;
            try {
                said = act(line.split(" "));
            } catch (Exception error) {
                said = "error " + told(error).replace('\n', ' ');
            }
            System.out.println(said);
            System.out.flush();
        }
        System.exit(0);
    }
}
