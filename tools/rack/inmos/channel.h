/* In the place of INMOS's header of this name: the links of a module, or of a relay, each a socket
 * or a pipe each way. rack.c has the calls. */
typedef struct channel Channel;
extern Channel *const links[4];
#define LINK0IN links[0]
#define LINK0OUT links[0]
#define LINK1IN links[1]
#define LINK1OUT links[1]
#define LINK2IN links[2]
#define LINK2OUT links[2]
#define LINK3IN links[3]
#define LINK3OUT links[3]

/* Those of examples/board/relay.c. */
#define CABLEIN links[1]
#define CABLEOUT links[1]
#define CONFIGOUT links[0]
#define CHAININ links[2]
#define CHAINOUT links[2]

void ChanIn(Channel *channel, void *at, int count);
void ChanOut(Channel *channel, void *at, int count);
