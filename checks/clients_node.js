// The client library MQTT.js of Node against a server that listens on a port of 127.0.0.1.
// Prints a line for each item that was shown.

'use strict'

const mqtt = require('mqtt')

// Milliseconds after which a client that is not answered is given up.
const PATIENCE = 1000 * Number(process.argv[2])
const PORT = Number(process.argv[3])
const MANY = 10000

function shown (item, isRight) {
  if (!isRight) throw new Error(`${item}: not as it should be`)
  console.log(item)
}

function same (found, wanted) {
  return JSON.stringify(found) === JSON.stringify(wanted)
}

// Without a Keep Alive, since on a busy machine MQTT.js would give up a connection.
function options (own) {
  const server = { protocolVersion: 5, port: PORT, host: '127.0.0.1', keepalive: 0 }
  return { ...server, reconnectPeriod: 0, connectTimeout: PATIENCE, clientId: 'node', ...own }
}

// The code of the CONNACK that refuses a client.
function refused (own) {
  return new Promise((resolve, reject) => {
    const client = mqtt.connect(options(own))
    client.on('connect', () => reject(new Error('accepted')))
    client.on('error', error => client.end(true, () => resolve(error.code)))
  })
}

// What a call of MQTT.js with a callback gives.
function done (call) {
  return new Promise((resolve, reject) => {
    call((error, given) => error ? reject(error) : resolve(given))
  })
}

function textsOf (packets) {
  return packets.map(packet => [packet.topic, packet.payload.toString()])
}

// A client with what came to it. Each call ends when the server has answered it.
class Session {
  static open (own) {
    return new Promise((resolve, reject) => {
      const session = new Session()
      session.messages = []
      session.client = mqtt.connect(options(own))
      session.client.on('error', reject)
      session.client.on('message', (topic, payload, packet) => {
        session.messages.push(packet)
        if (session.onMessage) session.onMessage(packet)
      })
      session.client.on('connect', connack => {
        session.connack = connack
        resolve(session)
      })
    })
  }

  // A retained publication. MQTT.js calls one of QoS 0 done when it was sent.
  publish (topic, payload, qos = 1, properties = {}) {
    const options = { qos, retain: true, properties }
    return done(call => this.client.publish(topic, payload, options, call))
  }

  subscribe (filter, qos = 1, rh = 0, properties = {}) {
    return done(call => this.client.subscribe(filter, { qos, rh, properties }, call))
  }

  // The codes of the UNSUBACK, which MQTT.js shows only among the packets that it receives.
  unsubscribe (filter) {
    return new Promise(resolve => {
      const onPacket = packet => {
        if (packet.cmd !== 'unsuback') return
        this.client.removeListener('packetreceive', onPacket)
        resolve([...packet.granted])
      }
      this.client.on('packetreceive', onPacket)
      this.client.unsubscribe(filter)
    })
  }

  // The messages that a SUBSCRIBE brings: a second one brings a last message after them. At QoS 2
  // that one has QoS 2, too, since MQTT.js gives such a message only when it is released.
  async replayed (filter, qos = 1, rh = 0, properties = {}) {
    this.messages = []
    const last = new Promise(resolve => {
      this.onMessage = packet => { if (packet.topic === 'last') resolve() }
    })
    await this.subscribe(filter, qos, rh, properties)
    await this.subscribe('last', qos)
    await last
    return this.messages.slice(0, -1)
  }

  topics (...words) {
    return this.replayed(...words).then(found => found.map(packet => packet.topic))
  }

  end () {
    return new Promise(resolve => this.client.end(false, resolve))
  }
}

async function keptAndReadBack () {
  const writer = await Session.open()
  for (const qos of [0, 1, 2]) await writer.publish(`kept/${qos}`, `message ${qos}`, qos)
  await writer.publish('last', 'last', 2)
  await writer.end()
  const reader = await Session.open()
  for (const granted of [0, 1, 2]) {
    const found = await reader.replayed('kept/+', granted)
    const wanted = [0, 1, 2].map(qos =>
      [`kept/${qos}`, `message ${qos}`, Math.min(qos, granted), true])
    const got = found.map(packet =>
      [packet.topic, packet.payload.toString(), packet.qos, packet.retain])
    shown(`retained at QoS 0, 1 and 2, read back at ${granted}`, same(got, wanted))
  }
  await reader.end()
}

async function subscriptions () {
  const session = await Session.open()
  const counts = []
  for (const rh of [1, 1, 0, 2]) counts.push((await session.replayed('kept/#', 1, rh)).length)
  shown('Retain Handling', same(counts, [3, 0, 3, 0]))
  const found = await session.replayed('kept/0', 1, 0, { subscriptionIdentifier: 300 })
  const identifiers = found.map(packet => packet.properties.subscriptionIdentifier)
  shown('Subscription Identifier', same(identifiers, [300]))
  const codes = [...await session.unsubscribe('kept/#'), ...await session.unsubscribe('kept/#')]
  const again = await session.replayed('kept/#', 1, 1)
  shown('UNSUBSCRIBE', same(codes, [0x00, 0x11]) && again.length === 3)
  await session.end()
}

async function propertiesAndExpiry () {
  const own = {
    payloadFormatIndicator: true,
    contentType: 'text/plain',
    responseTopic: 'answers',
    correlationData: Buffer.from([0, 1]),
    userProperties: { name: ['one', 'two'] }
  }
  const session = await Session.open()
  await session.publish('expiry/long', 'x', 1, { ...own, messageExpiryInterval: 2000000000 })
  await session.publish('expiry/none', 'x')
  await session.publish('expiry/over', 'x', 1, { messageExpiryInterval: 0 })
  const found = await session.replayed('expiry/#')
  const [long, none] = found.map(packet => packet.properties || {})
  const isSame = Object.entries(own).every(([name, value]) => same(long[name], value))
  shown('properties', isSame && none.userProperties === undefined)
  const left = long.messageExpiryInterval
  const isLess = left > 1999000000 && left <= 2000000000
  const isOwn = isLess && none.messageExpiryInterval === undefined
  shown('Message Expiry Interval', isOwn && found.length === 2)
  await session.publish('expiry/soon', 'x', 1, { messageExpiryInterval: 1 })
  while ((await session.replayed('expiry/soon')).length > 0);
  shown('a message expires', true)
  await session.end()
}

async function limits () {
  const one = await Session.open({ properties: { receiveMaximum: 1 } })
  const found = await one.replayed('kept/+', 2)
  shown('Receive Maximum', same(found.map(packet => packet.qos), [0, 1, 2]))
  await one.publish('large/1', 'x'.repeat(100))
  await one.publish('large/2', 'x'.repeat(101))
  await one.end()
  // The PUBLISH of `large/1` at QoS 1 has 2 bytes of fixed header, 9 of the topic, 2 of the
  // identifier, 1 of properties, 100 of payload.
  const small = await Session.open({ properties: { maximumPacketSize: 114 } })
  shown('Maximum Packet Size', same(await small.topics('large/#'), ['large/1']))
  await small.end()
}

async function identifiers () {
  const session = await Session.open({ clientId: '' })
  shown('assigned identifier', session.connack.properties.assignedClientIdentifier.length > 0)
  await session.end()
}

async function clear () {
  const session = await Session.open()
  await session.publish('clear', 'x')
  const before = await session.topics('clear')
  await session.publish('clear', '')
  shown('clear', same([before, await session.topics('clear')], [['clear'], []]))
  await session.end()
}

async function refusals () {
  shown('a will is refused', await refused({ will: { topic: 'will', payload: 'gone' } }) === 0x83)
  shown('MQTT 3.1.1 is refused', await refused({ protocolVersion: 4 }) === 0x84)
}

async function unicodeTopics () {
  const topics = ['Zürich/Temperatur', '東京/温度', '🌡/°C']
  const session = await Session.open()
  for (const topic of topics) await session.publish(topic, topic)
  const found = []
  const filters = ['+/Temperatur', '東京/#', '🌡/+']
  for (const filter of filters) found.push(...await session.replayed(filter))
  shown('unicode topics', same(textsOf(found), topics.map(topic => [topic, topic])))
  await session.end()
}

async function many () {
  const session = await Session.open()
  const numbers = [...Array(MANY).keys()]
  const names = numbers.map(number => `many/${10 + number % 90}/${10000 + number}`)
  for (let at = 0; at < MANY; at += 16) {
    await Promise.all(names.slice(at, at + 16).map(topic => session.publish(topic, topic)))
  }
  names.sort()
  for (const qos of [0, 1, 2]) {
    const found = await session.replayed('many/#', qos)
    const isSame = same(textsOf(found), names.map(topic => [topic, topic]))
    shown(`${MANY} retained messages in order, granted QoS ${qos}`, isSame)
  }
  await session.end()
}

async function main () {
  const stop = setTimeout(() => { throw new Error('not answered') }, PATIENCE)
  await keptAndReadBack()
  await subscriptions()
  await propertiesAndExpiry()
  await limits()
  await identifiers()
  await clear()
  await refusals()
  await unicodeTopics()
  await many()
  clearTimeout(stop)
}

main().catch(error => {
  console.error(`node: ${error.message}`)
  process.exit(1)
})
