// Asks rtfilter: node ask.js SOCKET LINE.. prints the boxes of each line's answer, and how many there were.
const net = require("net");
const readline = require("readline");

async function main([path, ...lines]) {
  const connection = net.connect(path);
  const replies = readline.createInterface({ input: connection })[Symbol.asyncIterator]();
  for (const line of lines) {
    connection.write(line + "\n");
    // A box is an id and a score, of up to 64 and 65 bits: BigInt reads them, Number would round them.
    for (let last = false; !last; ) {
      const { value: reply, done } = await replies.next();
      if (done) throw new Error("the connection has ended");
      console.log(reply);
      last = /^(ok|error) /.test(reply);
    }
  }
  connection.end();
}

main(process.argv.slice(2)).catch((error) => { console.error(error.message); process.exitCode = 1; });
