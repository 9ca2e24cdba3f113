/** A queue of delayed jobs at a server, {@code rb_broker serve}, as a {@code BlockingQueue}. */
module rbbroker.client {
    exports rbbroker.client;
}
