/**
 * A client of {@code rb_broker serve}, of the JDK alone: {@link rbbroker.client.RemoteDelayQueue} is the server's
 * queue, to be put where a {@code java.util.concurrent.DelayQueue} was. A job that a program holds which dies comes
 * back, so what is done for a job must be safe to repeat.
 */
package rbbroker.client;
