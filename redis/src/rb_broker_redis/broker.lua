#!lua name=rb_broker_7
-- The broker's calls as functions of a Redis (7.0 or later). docs/PROTOCOL.md has the requests, docs/HISTORY.md the
-- lines of events.
--
-- Keys. A queue NAME is eight keys with one hash tag, so all of it is on one node of a cluster. Every function takes
-- all eight, in this order, whether it needs them or not:
--   1 {NAME}:due       sorted set, all of score 0, so ordered by bytes: 'EXPIRY:ID ORIGIN FIRST ATTEMPT PAYLOAD'
--   2 {NAME}:ids       hash, of the elements in the queue: ID -> EXPIRY, with which REMOVE finds the member of due
--   3 {NAME}:held      sorted set, all of score 0: 'SEAT:ID FETCH EXPIRY ORIGIN FIRST ATTEMPT PAYLOAD'
--   4 {NAME}:state     hash, below
--   5 {NAME}:history   list of the event lines that no archive has taken yet, oldest first, without line feeds
--   6 {NAME}:dead      sorted set, all of score 0: 'ID DIED EXPIRY ORIGIN FIRST ATTEMPT PAYLOAD'
--   7 {NAME}:gateways  sorted set: the number of a gateway, with a score that each renewal of its lease changes, or 0
--                      while its sessions are ended
--   8 {NAME}:opening   list: the lines 'open ..' and 'keep ..' with which event 0 begins; no key for an empty opening
-- In due, held and dead the words EXPIRY, ID, SEAT, FETCH and DIED have 20 digits, and so has an EXPIRY of ids; all
-- other numbers are as in the protocol. Wakes are published at the channel '{NAME}:head'.
--
-- Fields of state:
--   next      the id of the next offer            fetched   how many fetches there were; their number orders held jobs
--   at        the last event's moment, 20 digits  calls     how many events there were
--   cut       how many of them an archive took    limit     the greatest number of calls; only a script's queue has one
--   pace      'delay' or 'rate'                   period    its nanoseconds, 20 digits
--   attempts  those of a job                      gateway   the number of the gateway that joined last
--   history   'no' if no events are kept          loading   the token of a load that has not ended
--             'brief' if those are not of a POLL, POLLFOR or DRAIN that found nothing
--   format    the version of all this, '1' where there is none
--   shards    how many queues there are under this name: 1, or those named NAME.0, NAME.1 and so on
--   wake      an offer below this expiry is published: a gateway waits, and knows of none below it
--   lease:GATEWAY  the microseconds of its lease, and the token with which it joined, unless its sessions are ended
--   clients:GATEWAY  how many clients it served when it renewed that
--   returned  how many jobs failed and came back        died  how many failed for the last time
--   most      'N drop' or 'N refuse': how many events history may have, and whether the oldest go then, or offers are
--             refused until an archive has taken some; there is no such end without it
--   dropped   the number of the first event that has not gone so; the opening in front of it is not known
--
-- A moment is a string of 20 digits, so it is exact up to 2^64 - 1 and ordered as text. Lua's numbers are exact up to
-- 2^53 only; sums are made of two halves of 10 digits. Moments are nanoseconds since 1970 by the node's TIME, and none
-- is before the last event's: a clock that is behind lets time stand still until it has caught up, also where a delay
-- is added to the moment or a deadline is made of it. What a LATER or a publish tells is read off the clock all the same,
-- so that waits last until then.
--
-- A session is its seat, a number that is never used again: GATEWAY * 10^9 + N for the session N of a gateway, and 0
-- for the commands of the package. GATEWAY is the second since 1970 at which the gateway joined, or the next number
-- that is free; so it is new even where a fail-over has lost what the queue knew. What a session holds is in held, in
-- the order of FETCH. A session has no lease of its own. Its gateway has one, which is renewed by changing a score. No
-- clock of a node judges it: another gateway that has seen one score for as long as the lease lasts names that in an
-- rb_renew, which ends the sessions if the score is still the same. From then on no call is made in the name of the late
-- gateway: it gets the error LEASE, and has to join anew. So nothing is given at a seat that has ended.
--
-- Functions. ARGS are those after the keys. The name of each ends in the version of this library, as rb_calls_7 does,
-- and so does that of the library. So gateways of several versions serve a queue side by side, as long as its format is
-- one that they know; of a later one they get the error FORMAT.
--   rb_version                                    the version of this library; it needs no keys
--   rb_join LEASE PACE PERIOD ATTEMPTS MODE TOKEN [MOST [set]]  a gateway joins, and the queue is made if need be.
--       LEASE is microseconds; PACE, PERIOD and ATTEMPTS are the policy, or '' for the queue's. MODE is '', 'change' to
--       change the policy of a queue that has another, 'silent' or 'brief' to keep no events, or fewer, of a queue that
--       is made now, or 'limit N' for a queue that takes N calls. TOKEN tells it from a gateway that gets the same
--       number after the Redis has lost this call. MOST is that of a queue that is made now, or with `set` also of one
--       that there is; '0 drop' is no end. -> [GATEWAY, PACE, PERIOD, ATTEMPTS], or the error POLICY
--   rb_calls MOMENT GATEWAY CALL ..               makes the calls, one after the other, in one step.
--       MOMENT is '' for the node's TIME, or 20 digits. GATEWAY is '' for the commands. -> the replies, with a zero byte
--       between them, or the error LEASE. A step that has taken its time makes no further call: then there are fewer
--       replies, and those of the first calls
--   rb_spare MOMENT GATEWAY CALL ..               the same for a Redis that is full: offers are 'ERR 7 memory', and all
--       that takes work out, or back, goes on
--   rb_renew GATEWAY LEASE TOKEN CLIENTS [LATE SCORE]  renews the lease, tells how many clients there are, and ends up
--       to 200 jobs of the gateway LATE, if its score is still this. -> how many jobs, what the clock shows, the last
--       event's moment, and number, score and lease of each other gateway; call again while LATE is among them with the
--       score 0; or the error LEASE
--   rb_shards COUNT                               sets the number of shards, if it is not set. -> the number before
--       that, or '' if there was none; without COUNT it sets nothing
--   rb_leave GATEWAY                              the gateway leaves, unless sessions of it still hold jobs
--   rb_cut CUT COUNT                              takes COUNT lines off the front of history, if CUT lines were taken
--       before, and the opening with them. -> how many were taken in all, which the caller compares
--   rb_load TOKEN INDEX LINE ..                   gives an unused queue the 'keep' lines that follow INDEX others, in
--       rising order of id. -> how many it has in all, so that a load that was broken off can go on
--   rb_loaded TOKEN NEXT LAST [PACE PERIOD ATTEMPTS]  ends the load: the next id, the last moment, and a policy
--   rb_freeze TOKEN [TEST]                        begins a load into a queue that may have been used, but is at rest: no
--       gateway, no job in hand, no event that an archive has not taken. With TEST it only looks. Or the error INUSE
--   rb_empty TOKEN                                ends such a load by emptying the queue
--
-- A CALL is one argument: 'SEAT REQUEST', where REQUEST is a line of the protocol that is known to be well formed
-- (without AT and QUIT), or one of these:
--   POLLFOR TIMEOUT START   a later try of a timed poll that began at START
--   WAIT                    a TAKE or a POLLFOR that others wait before: it is refused, or answered LATER
--   take, pollfor .., wait  the same as in capitals, of a session that holds fewer than 64 jobs, as its gateway knows
--   END                     the session ends: what it holds fails, in the order of its fetches. -> 'ENDED n', n lost
--   REVIVE ID DELAY         offers a dead job again, as a new job. -> 'OFFERED id expiry' or 'NONE'
--   DROP ID                 forgets a dead job. -> 'DROPPED id' or 'NONE'
-- A reply is the protocol's, each line with its line feed, or 'LATER HEAD NOW START\n' where TAKE and POLLFOR have to
-- wait: the earliest expiry ('-' if the queue is empty), what the clock shows, and when the wait began, three numbers.
--
-- A publish is 'HEAD NOW': the expiry of an element that has become the earliest, and what the clock shows.

local VERSION = '7'
local FORMAT = '1'
local LAST = '18446744073709551615'
local MOST_HELD = 64
local MOST_ENDED = 200
local MOST_MICROSECONDS = 8000 -- after which a step begins no further call
local MOST_WORK = 512 -- the same, in calls and in jobs that they give or let fail, where TIME stands still in a step
local WORK_BETWEEN_LOOKS = 16
local NEVER = '~' -- above every moment
local NOT_HELD, FULL, MEMORY, HELD = 'ERR 5 not-held\n', 'ERR 6 full\n', 'ERR 7 memory\n', 'ERR 9 held\n'
local MOST_DROPPED = 50000 -- events that go at once
local READ_AHEAD = 16 -- elements that are read at once from the front of due
local MOST_NEW = 64 -- elements of a step that due does not have yet
local MOST_KNOWN = 20000 -- members of held that are remembered, and calls that are a word alone
local ENDED = '0' -- in the place of a score: the gateway's sessions are ended

-- What stands before a number of so many digits. A library that is loaded may not use string.rep.
local ZEROS = { [20] = '' }
for digits = 19, 0, -1 do ZEROS[digits] = ZEROS[digits + 1] .. '0' end

local call, sub, find, match -- redis.call and functions of `string`, which a library has only once it is loaded

local function prepare() call, sub, find, match = redis.call, string.sub, string.find, string.match end

local function pad(number) return ZEROS[#number] .. number end
local function whole(number) return string.format('%d', number) end
local function plain(digits) return sub(digits, find(digits, '[^0]') or -1) end

-- The numbers below 1,000, each in digits and in three digits, and what stands in front of these in some others, by the
-- number without its last three.
local SMALL, ENDS, fronts, front_count = {}, {}, {}, 0
for last = 0, 999 do
    SMALL[last] = '' .. last
    ENDS[last] = (last < 10 and '00' or last < 100 and '0' or '') .. last
end

-- A number that is counted, in digits: it costs less than to format each.
local function counted(number)
    if number < 1000 then return SMALL[number] end
    local last = number % 1000
    local front = fronts[number - last]
    if not front then
        if front_count == 1000 then fronts, front_count = {}, 0 end
        front = whole((number - last) / 1000)
        fronts[number - last], front_count = front, front_count + 1
    end
    return front .. ENDS[last]
end

-- The sum as 20 digits, or nil if it passes 2^64 - 1.
local function add(a, b)
    local low = tonumber(string.sub(a, 11)) + tonumber(string.sub(b, 11))
    local high = tonumber(string.sub(a, 1, 10)) + tonumber(string.sub(b, 1, 10))
    if low >= 1e10 then low, high = low - 1e10, high + 1 end
    if high >= 1e10 then return nil end
    local sum = string.format('%010d%010d', high, low)
    return sum <= LAST and sum or nil
end

-- The product with a number of at most 1,000, as 20 digits, or nil if it passes 2^64 - 1.
local function multiply(a, times)
    local low = tonumber(string.sub(a, 11)) * times
    local carry = math.floor(low / 1e10)
    local high = tonumber(string.sub(a, 1, 10)) * times + carry
    if high >= 1e10 then return nil end
    local product = string.format('%010d%010d', high, low - carry * 1e10)
    return product <= LAST and product or nil
end

local function microseconds()
    local time = redis.call('TIME')
    return tonumber(time[1]) * 1e6 + tonumber(time[2])
end

local function moment_of(microsecond) return pad(whole(microsecond) .. '000') end

-- What the clock shows, without zeros in front.
local function clock()
    local time = call('TIME')
    local second, microsecond = time[1], time[2]
    return second .. sub('000000', #microsecond + 1) .. microsecond .. '000'
end

-- The members of held by the calls that say DONE of them, by the key of held and the gateway. So such a job need not be
-- looked for. They are forgotten at each renewal, which also begins each link: a Redis that was no primary for a while
-- remembers what others have changed since.
local known, known_count = {}, 0

local function known_of(keys, gateway)
    if known_count > MOST_KNOWN then known, known_count = {}, 0 end
    local of_queue = known[keys[3]]
    if not of_queue then
        of_queue = {}
        known[keys[3]] = of_queue
    end
    local of_gateway = of_queue[gateway]
    if not of_gateway then
        of_gateway = {}
        of_queue[gateway] = of_gateway
    end
    return of_gateway
end

local function forget_known(keys, gateway)
    if known[keys[3]] then known[keys[3]][gateway] = nil end
end

local function is_loading() return redis.error_reply('LOADING_QUEUE a load into this queue has not ended') end
local function is_later(format) return redis.error_reply('FORMAT ' .. format .. ' ' .. FORMAT) end
local function lease_is_over() return redis.error_reply('LEASE the lease of this gateway is over') end

-- The step, of which there is one at a time: what it has read, and what it is still to write. Events, counters and the
-- wake are written by `close`, once for all calls of a step; what changes in due and ids by `settle`, and in held by
-- `settle_held`, at the end or before somebody looks for it there. So an element that is given in the step that offers it
-- is never in due. Lists are used again, and each has a count beside it.
local due, ids, held, state, history, dead, gateways, opening -- its keys
local asked, at, plain_asked, plain_clock, stamp -- its moments, of which the stamp tells events
local next_id, call_count, fetched, wake, limit, is_silent, is_brief -- what state has
local calls_before, wake_before, earlier
local most_text, most, refuses -- how many events history may have, and whether offers are refused then
local pace, period, attempts -- once it has learnt the policy
local is_spare, work, returned, died
local lines, line_count = {}, 0 -- events
local heads, first, popped, ahead, is_all, taken = {}, 1, 0, 1, nil, {} -- the front of due, and ids that go from there
local new, new_ids, fresh, least = {}, {}, 0, nil -- elements that are new, and the place of the earliest
local holds, ends, hold_count = {}, {}, 0 -- jobs that are fetched, and the calls that say DONE of them
local done, done_at, done_count = {}, {}, 0 -- jobs that are done, and which replies say so
local counts = {} -- how many jobs a session holds, for those of which it was counted
local replies = {}
local known_here -- the members of held that are known
local seat_gap -- where a gateway's calls have the space behind their seat

local function learn_most(text)
    most_text = text
    most, refuses = text and tonumber(string.match(text, '^%d+')), text and find(text, 'refuse')
end

-- Begins a step. -> nothing, or an error
local function open(keys, moment, gateway)
    due, ids, held, state, history, dead, gateways, opening = unpack(keys)
    local next_offer, last, calls, fetches, known_wake, most_calls, kept, loading, format, end_of_history, lease = unpack(call(
        'HMGET', state, 'next', 'at', 'calls', 'fetched', 'wake', 'limit', 'history', 'loading', 'format', 'most',
        'lease:' .. gateway))
    if loading then return is_loading() end
    if (format or FORMAT) ~= FORMAT then return is_later(format) end
    if not calls then return redis.error_reply('NOQUEUE there is no such queue') end
    if gateway ~= '' and not (lease and find(lease, ' ', 1, true)) then return lease_is_over() end
    plain_clock = moment == '' and clock() or plain(moment)
    local now = pad(plain_clock)
    at = now > last and now or last
    asked = moment == '' and at or now
    local plain_at = at == now and plain_clock or plain(at)
    plain_asked = asked == at and plain_at or plain_clock
    stamp = ' ' .. plain_asked .. ' ' .. plain_at .. ' '
    next_id, call_count, fetched, wake = tonumber(next_offer), tonumber(calls), tonumber(fetches), known_wake
    limit, is_silent, is_brief = most_calls and tonumber(most_calls) or math.huge, kept == 'no', kept == 'brief'
    if end_of_history ~= most_text then learn_most(end_of_history) end
    calls_before, wake_before, earlier, attempts = call_count, wake, nil, nil
    is_spare, work, returned, died = false, 0, 0, 0
    line_count, popped, fresh, least, hold_count, done_count = 0, 0, 0, nil, 0, 0
    heads, first, ahead, is_all = {}, 1, 1, nil
    if next(counts) then counts = {} end
    known_here = gateway ~= '' and known_of(keys, gateway)
    seat_gap = known_here and #gateway + 10
end

-- Lets the oldest events go, an eighth of those that there may be.
local function drop_oldest(count)
    local gone = whole(math.min(count - math.floor(most * 7 / 8), MOST_DROPPED))
    call('LTRIM', history, gone, -1)
    call('UNLINK', opening)
    call('HSET', state, 'dropped', whole(call('HINCRBY', state, 'cut', gone)))
end

local function append()
    if line_count > 0 and not is_silent then
        local count = call('RPUSH', history, unpack(lines, 1, line_count))
        if most and count > most and not refuses then drop_oldest(count) end
    end
    line_count = 0
end

-- Writes what the step did to the elements.
local function settle()
    if popped > 0 then
        call('ZREMRANGEBYRANK', due, '0', counted(popped - 1))
        call('HDEL', ids, unpack(taken, 1, popped))
        popped = 0
    end
    if fresh > 0 then
        call('ZADD', due, unpack(new, 1, 2 * fresh))
        call('HSET', ids, unpack(new_ids, 1, 2 * fresh))
        fresh, least = 0, nil
    end
    heads, first, is_all = {}, 1, nil
end

-- Writes what the step let sessions hold, and what it let them be done with.
local function settle_held()
    if hold_count > 0 then
        call('ZADD', held, unpack(holds, 1, 2 * hold_count))
        if known_here then
            for place = 1, hold_count do known_here[ends[place]] = holds[2 * place] end
            known_count = known_count + hold_count
        end
        hold_count = 0
    end
    if done_count > 0 then
        if call('ZREM', held, unpack(done, 1, done_count)) < done_count then -- somebody has changed held by hand
            for place = 1, done_count do replies[done_at[place]] = NOT_HELD end
        end
        done_count = 0
    end
end

-- Ends a step.
local function close()
    if popped + fresh > 0 then settle() end
    settle_held()
    append()
    if returned > 0 then call('HINCRBY', state, 'returned', whole(returned)) end
    if died > 0 then call('HINCRBY', state, 'died', whole(died)) end
    if call_count > calls_before then
        call('HSET', state, 'next', counted(next_id), 'at', at, 'calls', counted(call_count), 'fetched', counted(fetched),
            'wake', wake)
    elseif wake ~= wake_before then
        call('HSET', state, 'wake', wake)
    end
    if earlier then call('PUBLISH', sub(due, 1, -4) .. 'head', plain(earlier) .. ' ' .. plain_clock) end
end

-- Records an event: its line is the seat, the stamp and the act.
local function record(line)
    call_count, line_count = call_count + 1, line_count + 1
    lines[line_count] = line
    if line_count == 1000 then append() end
end

-- Records what was found, or that nothing was.
local function record_found(found, line)
    if found or not is_brief then record(line) end
end

-- The place of the earliest of the new elements, if there is one.
local function least_new()
    if not least and fresh > 0 then
        least = 2
        for place = 4, 2 * fresh, 2 do
            if new[place] < new[least] then least = place end
        end
    end
    return least
end

-- The member of the earliest element, and its place if it is a new one; nothing if the queue is empty.
local function head_of()
    local head = heads[first]
    if not head and not is_all then
        heads = call('ZRANGE', due, counted(popped), counted(popped + ahead - 1))
        first, is_all = 1, #heads < ahead
        head = heads[1]
    end
    local place = least_new()
    if place and (not head or new[place] < head) then return new[place], place end
    return head
end

-- Inserts an element, and records its offer. A first attempt has no origin yet.
local function insert(seat, expiry, origin, first_expiry, attempt, payload)
    local id, shown = counted(next_id), expiry == asked and plain_asked or plain(expiry)
    local rest = (origin or id) .. ' ' .. (first_expiry or shown) .. ' ' .. attempt .. ' ' .. payload
    local member = expiry .. ':' .. ZEROS[#id] .. id .. ' ' .. rest
    if fresh == MOST_NEW then settle() end
    local place = 2 * fresh + 2
    new[place - 1], new[place] = '0', member
    new_ids[place - 1], new_ids[place] = id, expiry
    next_id, fresh = next_id + 1, fresh + 1
    if least and member < new[least] then least = place end
    if expiry < wake then
        wake = expiry
        if not earlier or expiry < earlier then earlier = expiry end
    end
    record(seat .. stamp .. 'offer ' .. id .. ' ' .. shown .. ' ' .. rest)
    return id, shown
end

-- How many jobs the session holds.
local function count_of(seat)
    local count = counts[seat]
    if not count then
        settle_held()
        local prefix = pad(seat)
        count = call('ZLEXCOUNT', held, '[' .. prefix .. ':', '(' .. prefix .. ';')
        counts[seat] = count
    end
    return count
end

-- The session holds so many jobs more.
local function count_held(seat, more)
    local count = counts[seat]
    if count then counts[seat] = count + more end
end

-- Takes an element out that due does not have yet.
local function take_new(place)
    local last = 2 * fresh
    new[place], new_ids[place - 1], new_ids[place] = new[last], new_ids[last - 1], new_ids[last]
    fresh, least = fresh - 1, nil
end

-- Lets the session hold an element, whose member of due is this.
local function hold(seat, id, expiry, rest, shown)
    fetched, hold_count, work = fetched + 1, hold_count + 1, work + 1
    local number, place = counted(fetched), 2 * hold_count
    holds[place - 1] = '0'
    holds[place] = ZEROS[#seat] .. seat .. ':' .. id .. ' ' .. ZEROS[#number] .. number .. ' ' .. expiry .. ' ' .. rest
    ends[hold_count] = seat .. ' DONE ' .. shown
    count_held(seat, 1)
end

-- Takes out the earliest element, if it has expired, and lets the session hold it. -> its id and its ITEM line
local function fetch(seat)
    local head, place = head_of()
    local expiry = head and sub(head, 1, 20)
    if not head or expiry > at then return nil end
    local id, rest = sub(head, 22, 41), sub(head, 43)
    local shown, first_expiry, behind = match(rest, '^(%d+) (%d+) ()')
    local item = rest
    if pad(shown) ~= id or pad(first_expiry) ~= expiry then -- it is not the first of its job
        shown = plain(id)
        item = shown .. ' ' .. plain(expiry) .. ' ' .. sub(rest, behind)
    end
    if place then
        take_new(place)
    else
        first, popped = first + 1, popped + 1
        taken[popped] = shown
    end
    hold(seat, id, expiry, rest, shown)
    return shown, 'ITEM ' .. item .. '\n'
end

-- When a wait that finds nothing has to be tried again.
local function later(start)
    local head = head_of()
    local expiry = head and sub(head, 1, 20) or NEVER
    if wake == '' or expiry > wake then wake = expiry end
    return 'LATER ' .. (head and plain(expiry) or '-') .. ' ' .. plain_clock .. ' ' .. start .. '\n'
end

-- Reads the policy, which few steps need.
local function learn_policy()
    pace, period, attempts = unpack(call('HMGET', state, 'pace', 'period', 'attempts'))
    attempts = tonumber(attempts)
end

-- The moment at which the next attempt of a job that fails now expires.
local function next_expiry(first_expiry, attempt)
    if pace == 'delay' then return add(asked, period) or LAST end
    local passed = multiply(period, attempt)
    return passed and add(pad(first_expiry), passed) or LAST
end

-- The job that a member of held describes.
local function job_of(member)
    local id, fetch, expiry, origin, first, attempt, payload =
        string.match(member, '^%d+:(%d+) (%d+) (%d+) (%d+) (%d+) (%d+) (.*)$')
    return { id = id, fetch = fetch, expiry = expiry, origin = origin, first = first, attempt = tonumber(attempt),
        payload = payload, member = member }
end

-- Lets a session hold a job no more.
local function release(seat, job)
    call('ZREM', held, job.member)
    count_held(seat, -1)
    if known_here then known_here[seat .. ' DONE ' .. plain(job.id)] = nil end
end

-- Lets a held job fail. -> its reply, or nil if its next attempt is refused: then it stays held
local function fail_job(seat, job)
    local reply
    if not attempts then learn_policy() end
    work = work + 1
    if job.attempt >= attempts then
        call('ZADD', dead, 0, job.id .. ' ' .. at .. ' ' .. sub(job.member, 64))
        died = died + 1
        reply = 'DEAD ' .. plain(job.id) .. '\n'
    elseif call_count >= limit then
        return nil
    else
        local id, shown = insert(seat, next_expiry(job.first, job.attempt), job.origin, job.first, whole(job.attempt + 1),
            job.payload)
        returned = returned + 1
        reply = 'AGAIN ' .. id .. ' ' .. shown .. '\n'
    end
    release(seat, job)
    return reply
end

-- Ends a session: what it holds fails in the order of the fetches. -> how many jobs are lost
local function end_session(seat)
    settle_held()
    local prefix = pad(seat)
    local members = call('ZRANGEBYLEX', held, '[' .. prefix .. ':', '(' .. prefix .. ';')
    local jobs, lost = {}, 0
    for place, member in ipairs(members) do jobs[place] = job_of(member) end
    table.sort(jobs, function(one, other) return one.fetch < other.fetch end)
    for _, job in ipairs(jobs) do
        if not fail_job(seat, job) then
            release(seat, job)
            lost = lost + 1
        end
    end
    counts[seat] = 0
    return lost
end

-- The requests. Each gets the seat and the words, and returns the reply.
local requests = {}

local function offer_at(seat, expiry, payload)
    if call_count >= limit then return FULL end
    if is_spare or refuses and call('LLEN', history) + line_count >= most then return MEMORY end
    local id, shown = insert(seat, expiry, nil, nil, '1', payload)
    return 'OFFERED ' .. id .. ' ' .. shown .. '\n'
end

function requests.OFFER(seat, delay, payload)
    local expiry = delay == '0' and asked or add(asked, pad(delay))
    if not expiry then return 'ERR 3 range\n' end
    return offer_at(seat, expiry, payload)
end

function requests.OFFERAT(seat, expiry, payload) return offer_at(seat, pad(expiry), payload) end

-- A request that is refused while its session holds as many jobs as it may.
local function counting(request)
    return function(seat, number, start)
        if count_of(seat) >= MOST_HELD then return HELD end
        return request(seat, number, start)
    end
end

requests.POLL = counting(function(seat)
    if call_count >= limit then return FULL end
    local id, item = fetch(seat)
    record_found(id, seat .. stamp .. 'poll ' .. (id or 'none'))
    return item or 'NONE\n'
end)

function requests.take(seat)
    if call_count >= limit then return FULL end
    local id, item = fetch(seat)
    if not id then return later(plain_asked) end
    record(seat .. stamp .. 'take ' .. id)
    return item
end

function requests.pollfor(seat, timeout, start)
    if call_count >= limit then return FULL end
    if start == '' then start = plain_asked end
    local id, item = fetch(seat)
    if not id and (add(pad(start), pad(timeout)) or LAST) > at then return later(start) end
    record_found(id, seat .. stamp .. 'pollfor ' .. start .. ' ' .. timeout .. ' ' .. (id or 'none'))
    return item or 'NONE\n'
end

function requests.wait()
    if call_count >= limit then return FULL end
    return later(plain_asked)
end

requests.TAKE, requests.POLLFOR, requests.WAIT =
    counting(requests.take), counting(requests.pollfor), counting(requests.wait)

function requests.PEEK(seat)
    if call_count >= limit then return FULL end
    local head = head_of() or ''
    local expiry, id, attempt, payload = string.match(head, '^0*(%d+):0*(%d+) %d+ %d+ (%d+) (.*)$')
    record(seat .. stamp .. 'peek ' .. (id or 'none'))
    if not id then return 'NONE\n' end
    return 'HEAD ' .. id .. ' ' .. expiry .. ' ' .. attempt .. ' ' .. payload .. '\n'
end

function requests.REMOVE(seat, id)
    if call_count >= limit then return FULL end
    settle()
    local expiry = call('HGET', ids, id)
    if expiry then
        local member = expiry .. ':' .. pad(id)
        call('ZREMRANGEBYLEX', due, '[' .. member .. ' ', '(' .. member .. '!')
        call('HDEL', ids, id)
    end
    local answer = expiry and 'yes' or 'no'
    record(seat .. stamp .. 'remove ' .. id .. ' ' .. answer)
    return 'REMOVED ' .. answer .. '\n'
end

function requests.DRAIN(seat, number)
    if call_count >= limit then return FULL end
    local max = math.min(tonumber(number), MOST_HELD - count_of(seat))
    local act, items = { 'drain ' .. whole(max) }, { '' }
    while #items <= max do
        local id, item = fetch(seat)
        if not id then break end
        act[#act + 1], items[#items + 1] = id, item
    end
    record_found(items[2], seat .. stamp .. table.concat(act, ' '))
    items[1] = 'DRAINED ' .. whole(#items - 1) .. '\n'
    return table.concat(items)
end

function requests.CLEAR(seat)
    if call_count >= limit then return FULL end
    settle()
    call('UNLINK', due, ids)
    record(seat .. stamp .. 'clear')
    return 'CLEARED\n'
end

function requests.SIZE(seat)
    if call_count >= limit then return FULL end
    local count = whole(call('ZCARD', due) - popped + fresh)
    record(seat .. stamp .. 'size ' .. count)
    return 'SIZE ' .. count .. '\n'
end

-- Makes a command that finds what a session holds by the id.
local function on_held(command, seat, id)
    local front = pad(seat) .. ':' .. pad(id)
    return call(command, held, '[' .. front .. ' ', '(' .. front .. '!')
end

function requests.DONE(seat, id)
    settle_held()
    if on_held('ZREMRANGEBYLEX', seat, id) == 0 then return NOT_HELD end
    if known_here then known_here[seat .. ' DONE ' .. id] = nil end -- it was fetched in this step
    count_held(seat, -1)
    return 'DONE ' .. id .. '\n'
end

-- The same, where the member of held is known, for the reply at this place.
local function done_known(text, member, place)
    done_count = done_count + 1
    done[done_count], done_at[done_count] = member, place
    known_here[text], known_count = nil, known_count - 1
    if next(counts) then count_held(sub(text, 1, seat_gap - 1), -1) end
    return sub(text, seat_gap + 1) .. '\n'
end

function requests.FAIL(seat, id)
    settle_held()
    local member = on_held('ZRANGEBYLEX', seat, id)[1]
    if not member then return NOT_HELD end
    return fail_job(seat, job_of(member)) or FULL
end

function requests.END(seat) return 'ENDED ' .. end_session(seat) .. '\n' end

local function dead_job(id) return call('ZRANGEBYLEX', dead, '[' .. pad(id) .. ' ', '(' .. pad(id) .. '!')[1] end

function requests.REVIVE(seat, id, delay)
    local member = dead_job(id)
    if not member then return 'NONE\n' end
    local reply = requests.OFFER(seat, delay, string.match(member, '(%S+)$'))
    if sub(reply, 1, 3) ~= 'ERR' then call('ZREM', dead, member) end
    return reply
end

function requests.DROP(seat, id)
    local member = dead_job(id)
    if not member then return 'NONE\n' end
    call('ZREM', dead, member)
    return 'DROPPED ' .. id .. '\n'
end

-- The seats and the requests of calls that are a word alone, which a session makes again and again.
local seats, words, word_count = {}, {}, 0

local function remember(text, seat, word)
    if word_count == MOST_KNOWN then seats, words, word_count = {}, {}, 0 end
    seats[text], words[text], word_count = seat, requests[word], word_count + 1
end

-- Makes the call of this text. -> its reply
local function carry_out(text)
    local seat = seats[text]
    if seat then return words[text](seat, '', '') end
    local gap = seat_gap or find(text, ' ', 1, true)
    local word, number, payload = match(text, '^(%a+) (%d+) ?(.*)$', gap + 1)
    seat = sub(text, 1, gap - 1)
    if word then return requests[word](seat, number, payload) end
    remember(text, seat, sub(text, gap + 1))
    return words[text](seat, '', '')
end

-- Whether a step has taken its time.
local function is_late(began, calls)
    return calls + work >= MOST_WORK or microseconds() - began >= MOST_MICROSECONDS
end

local function perform(keys, args, spare)
    local fault = open(keys, args[1], args[2])
    if fault then return fault end
    local known, next_look, began, count, replies = known_here or {}, WORK_BETWEEN_LOOKS, nil, #args - 2, replies
    is_spare, ahead = spare, math.min(count, READ_AHEAD)
    for place = 1, count do
        local text = args[place + 2]
        local member = known[text]
        replies[place] = member and done_known(text, member, place) or carry_out(text)
        if place + work >= next_look then
            began = began or args[1] == '' and tonumber(plain_clock) / 1e3 or microseconds()
            if is_late(began, place) then
                count = place
                break
            end
            next_look = place + work + WORK_BETWEEN_LOOKS
        end
    end
    close()
    return table.concat(replies, '\0', 1, count)
end

local function make_queue(keys, pace, period, attempts)
    redis.call('HSET', keys[4], 'pace', pace, 'period', period, 'attempts', attempts)
    for field, value in pairs({ next = '0', at = pad('0'), calls = '0', fetched = '0', wake = '', cut = '0' }) do
        redis.call('HSETNX', keys[4], field, value)
    end
end

local function join_gateway(keys, args)
    local lease, pace, period, attempts, mode, token, most, set = unpack(args)
    local state = redis.call('HMGET', keys[4], 'pace', 'period', 'attempts', 'loading', 'format')
    if state[4] then return is_loading() end
    if (state[5] or FORMAT) ~= FORMAT then return is_later(state[5]) end
    local is_new = not state[1]
    if is_new and pace == '' then
        pace, period, attempts = 'delay', pad('30000000000'), '20'
    elseif pace == '' then
        pace, period, attempts = unpack(state, 1, 3)
    elseif not is_new and mode ~= 'change' and (pace ~= state[1] or period ~= state[2] or attempts ~= state[3]) then
        return redis.error_reply('POLICY ' .. state[1] .. ' ' .. plain(state[2]) .. ' ' .. state[3])
    end
    make_queue(keys, pace, period, attempts)
    if is_new then
        local history = ({ silent = 'no', brief = 'brief' })[mode]
        if history then redis.call('HSET', keys[4], 'history', history) end
        if string.sub(mode, 1, 6) == 'limit ' then redis.call('HSET', keys[4], 'limit', string.sub(mode, 7)) end
    end
    if most and (is_new or set) then
        if most == '0 drop' then redis.call('HDEL', keys[4], 'most') else redis.call('HSET', keys[4], 'most', most) end
    end
    local now = microseconds()
    local before = tonumber(redis.call('HGET', keys[4], 'gateway') or '0')
    local gateway = whole(math.max(before + 1, math.floor(now / 1e6)))
    redis.call('HSET', keys[4], 'gateway', gateway, 'lease:' .. gateway, lease .. ' ' .. (token or ''))
    redis.call('ZADD', keys[7], whole(now + tonumber(lease)), gateway)
    return { gateway, pace, period, attempts }
end

local function forget_gateway(keys, gateway)
    forget_known(keys, gateway)
    redis.call('HDEL', keys[4], 'lease:' .. gateway, 'clients:' .. gateway)
    return redis.call('ZREM', keys[7], gateway)
end

-- The bounds of what a gateway's sessions hold: its first seat, and that of the next gateway.
local function held_by(gateway)
    return '[' .. pad(gateway .. '000000000'), '(' .. pad(whole(tonumber(gateway) + 1) .. '000000000')
end

-- A gateway of version 2 says nothing of its lease, and its score is the microsecond at which that ends.
local function lease_of(keys, gateway, score)
    local lease = redis.call('HGET', keys[4], 'lease:' .. gateway)
    return lease and string.match(lease, '^%d+') or whole(math.max(tonumber(score) - microseconds(), 0))
end

-- Ends some of the sessions of a gateway that has this score. -> how many jobs they held, or nil and an error
local function end_gateway(keys, late, score)
    local found = redis.call('ZSCORE', keys[7], late)
    if not found or found ~= score and found ~= ENDED then return 0 end
    local fault = open(keys, '', '')
    if fault then return nil, fault end
    forget_known(keys, late)
    call('HSET', state, 'lease:' .. late, lease_of(keys, late, score)) -- without a token, so it makes no call any more
    local lowest, above = held_by(late)
    local members = call('ZRANGEBYLEX', held, lowest, above, 'LIMIT', 0, MOST_ENDED)
    local ended
    for _, member in ipairs(members) do
        local seat = plain(string.sub(member, 1, 20))
        if seat ~= ended then end_session(seat) end
        ended = seat
    end
    if #members < MOST_ENDED then forget_gateway(keys, late) else redis.call('ZADD', keys[7], ENDED, late) end
    close()
    return #members
end

local function renew(keys, args)
    local gateway, lease, token, clients, late, score = unpack(args)
    if redis.call('HGET', keys[4], 'lease:' .. gateway) ~= lease .. ' ' .. token then return lease_is_over() end
    forget_known(keys, gateway)
    redis.call('ZADD', keys[7], whole(microseconds() + tonumber(lease)), gateway)
    redis.call('HSET', keys[4], 'clients:' .. gateway, clients)
    local told, fault = { 0, moment_of(microseconds()), redis.call('HGET', keys[4], 'at') }, nil
    if late then told[1], fault = end_gateway(keys, late, score) end
    if fault then return fault end
    local scores = redis.call('ZRANGE', keys[7], 0, -1, 'WITHSCORES')
    for place = 1, #scores, 2 do
        local other, its_score = scores[place], scores[place + 1]
        if other ~= gateway then
            told[#told + 1], told[#told + 2], told[#told + 3] = other, its_score, lease_of(keys, other, its_score)
        end
    end
    return told
end

local function shards(keys, args)
    local there, pace = unpack(redis.call('HMGET', keys[4], 'shards', 'pace'))
    there = there or pace and '1' or ''
    if there == '' and args[1] then redis.call('HSET', keys[4], 'shards', args[1]) end
    return there
end

local function leave(keys, args)
    if redis.call('ZLEXCOUNT', keys[3], held_by(args[1])) > 0 then return 0 end
    return forget_gateway(keys, args[1])
end

local function cut(keys, args)
    local taken = redis.call('HGET', keys[4], 'cut')
    if taken ~= args[1] or args[2] == '0' then return taken end
    redis.call('LTRIM', keys[5], args[2], -1)
    redis.call('UNLINK', keys[8])
    return whole(redis.call('HINCRBY', keys[4], 'cut', args[2]))
end

local function load(keys, args)
    local token, index = args[1], tonumber(args[2])
    local state = redis.call('HMGET', keys[4], 'loading', 'next')
    if state[1] ~= token and (state[1] or state[2]) then
        return redis.error_reply('USED this queue is in use, or another load into it has not ended')
    end
    redis.call('HSET', keys[4], 'loading', token)
    local count = redis.call('LLEN', keys[8])
    for place = count - index + 3, #args do
        local id, expiry, rest = string.match(args[place], '^keep (%d+) (%d+) (.*)$')
        redis.call('ZADD', keys[1], 0, pad(expiry) .. ':' .. pad(id) .. ' ' .. rest)
        redis.call('HSET', keys[2], id, pad(expiry))
        redis.call('RPUSH', keys[8], args[place])
    end
    return redis.call('LLEN', keys[8])
end

local function loaded(keys, args)
    local token, next, last, pace, period, attempts = unpack(args)
    local state = redis.call('HMGET', keys[4], 'loading', 'loaded')
    if state[1] ~= token then
        if state[2] == token then return 0 end
        return redis.error_reply('USED this load has not begun')
    end
    local count = redis.call('LLEN', keys[8])
    redis.call('LPUSH', keys[8], 'open ' .. next .. ' ' .. last .. ' ' .. whole(count))
    redis.call('HSET', keys[4], 'next', next, 'at', pad(last), 'loaded', token)
    if pace then make_queue(keys, pace, period, attempts) end
    redis.call('HDEL', keys[4], 'loading')
    return count
end

local function freeze(keys, args)
    local loading, loaded_before = unpack(redis.call('HMGET', keys[4], 'loading', 'loaded'))
    if loading == args[1] or loaded_before == args[1] then return 0 end
    local why = loading and 'a load into it has not ended' or redis.call('ZCARD', keys[7]) > 0 and 'a gateway serves it'
        or redis.call('ZCARD', keys[3]) > 0 and 'jobs of it are in hand'
        or redis.call('LLEN', keys[5]) > 0 and 'it has events that no archive has taken'
    if why then return redis.error_reply('INUSE ' .. why) end
    if not args[2] then
        redis.call('HSET', keys[4], 'loading', args[1])
        redis.call('UNLINK', keys[8])
    end
    return 1
end

local function empty(keys, args)
    local loading, next, at = unpack(redis.call('HMGET', keys[4], 'loading', 'next', 'at'))
    if loading ~= args[1] then return 0 end
    redis.call('UNLINK', keys[1], keys[2], keys[6], keys[8])
    redis.call('RPUSH', keys[8], 'open ' .. next .. ' ' .. plain(at) .. ' 0')
    return redis.call('HDEL', keys[4], 'loading')
end

local function calls(keys, args) return perform(keys, args, false) end
local function spare(keys, args) return perform(keys, args, true) end

local function register(name, callback, ...)
    local function prepared(keys, args)
        if not call then prepare() end
        return callback(keys, args)
    end
    redis.register_function { function_name = name .. '_' .. VERSION, callback = prepared, flags = { ... } }
end

register('rb_version', function() return VERSION end, 'no-writes')
register('rb_join', join_gateway, 'allow-oom')
register('rb_calls', calls)
register('rb_spare', spare, 'allow-oom')
register('rb_renew', renew, 'allow-oom')
register('rb_shards', shards, 'allow-oom')
register('rb_leave', leave, 'allow-oom')
register('rb_cut', cut, 'allow-oom')
register('rb_load', load)
register('rb_loaded', loaded)
register('rb_freeze', freeze)
register('rb_empty', empty, 'allow-oom')
