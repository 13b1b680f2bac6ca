// Asks rtfilter: java Ask.java SOCKET LINE.. prints the boxes of each line's answer, and how many there were.
import java.io.*;
import java.net.*;
import java.nio.channels.*;

class Ask {
    public static void main(String[] words) throws IOException {
        try (SocketChannel connection = SocketChannel.open(UnixDomainSocketAddress.of(words[0]))) {
            PrintStream lines = new PrintStream(Channels.newOutputStream(connection), true);
            BufferedReader replies = new BufferedReader(new InputStreamReader(Channels.newInputStream(connection)));
            for (int at = 1; at < words.length; at++) {
                lines.print(words[at] + "\n");
                // A box is an id, a long, and a score, a BigInteger; the last line of an answer begins otherwise.
                for (String reply = ""; !reply.startsWith("ok ") && !reply.startsWith("error "); ) {
                    reply = replies.readLine();
                    if (reply == null) throw new EOFException("the connection has ended");
                    System.out.println(reply);
                }
            }
        }
    }
}
