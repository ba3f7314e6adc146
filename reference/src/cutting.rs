//! Cuttings of a list of requests into packets: the packet rules as a check of any cutting, the
//! fewest packets by search, and a cutting that takes number after number.

use crate::packet::{BLOCK_HEADER_OCTETS, EMPTY_PACKET_OCTETS};

/// A stream, the first number asked for, and how many.
#[derive(Clone, Copy, Debug, PartialEq, Eq)]
#[repr(C)]
pub struct Request {
    pub ssrc: u32,
    pub begin: u16,
    pub count: u16,
}

/// A block that reports on `count` numbers, starting at `begin`, for a request of the list.
#[derive(Clone, Copy, Debug, PartialEq, Eq)]
pub struct Block {
    pub request: usize,
    pub begin: u16,
    pub count: u16,
}

pub type Packet = Vec<Block>;

impl Block {
    fn size(&self) -> usize {
        (BLOCK_HEADER_OCTETS + 2 * usize::from(self.count)).next_multiple_of(4)
    }
}

pub fn packet_size(packet: &[Block]) -> usize {
    EMPTY_PACKET_OCTETS + packet.iter().map(Block::size).sum::<usize>()
}

/// The numbers of a range; 0 follows 65535.
fn numbers(begin: u16, count: u16) -> Vec<u16> {
    (0..count).map(|i| begin.wrapping_add(i)).collect()
}

/// The first packet rule that a cutting breaks, by its name in docs/RULES.md. The limit is a
/// multiple of 4.
pub fn broken_rule(requests: &[Request], limit: usize, cutting: &[Packet]) -> Option<&'static str> {
    let blocks: Vec<Block> = cutting.concat();
    let rules: [(&str, bool); 7] = [
        ("a block is of a request of the list", {
            blocks.iter().all(|block| block.request < requests.len())
        }),
        ("Order of requests", blocks.windows(2).all(|two| two[0].request <= two[1].request)),
        ("Each number once", {
            (0..requests.len()).all(|request| all_its_numbers(requests, request, &blocks))
        }),
        ("No stream twice", cutting.iter().all(|packet| no_stream_twice(requests, packet))),
        ("Empty blocks", {
            empty_blocks(requests)
                == blocks.iter().filter(|b| b.count == 0).copied().collect::<Vec<_>>()
        }),
        ("No empty packet", !cutting.contains(&vec![])),
        ("Within the limit", cutting.iter().all(|packet| packet_size(packet) <= limit)),
    ];
    rules.iter().find(|(_, kept)| !kept).map(|(rule, _)| *rule)
}

fn all_its_numbers(requests: &[Request], request: usize, blocks: &[Block]) -> bool {
    let its_blocks = blocks.iter().filter(|block| block.request == request);
    let reported: Vec<u16> =
        its_blocks.flat_map(|block| numbers(block.begin, block.count)).collect();
    reported == numbers(requests[request].begin, requests[request].count)
}

fn no_stream_twice(requests: &[Request], packet: &[Block]) -> bool {
    let streams = packet.iter().filter_map(|block| requests.get(block.request));
    let mut ssrcs: Vec<u32> = streams.map(|request| request.ssrc).collect();
    ssrcs.sort_unstable();
    ssrcs.windows(2).all(|two| two[0] != two[1])
}

/// The empty blocks that a cutting must have.
fn empty_blocks(requests: &[Request]) -> Vec<Block> {
    let blocks = requests.iter().enumerate();
    let blocks = blocks.map(|(request, r)| Block { request, begin: r.begin, count: r.count });
    blocks.filter(|block| block.count == 0).collect()
}

/// What is reported, in order: a block for each number, and the empty blocks.
fn items(requests: &[Request]) -> Vec<Block> {
    let mut items = Vec::new();
    for (request, r) in requests.iter().enumerate() {
        if r.count == 0 {
            items.push(Block { request, begin: r.begin, count: 0 });
        }
        let of_number = |begin| Block { request, begin, count: 1 };
        items.extend(numbers(r.begin, r.count).into_iter().map(of_number));
    }
    items
}

/// Lets the last block of a packet report on one number more.
fn lengthen(packet: &mut [Block]) {
    packet.last_mut().expect("a block").count += 1;
}

/// The packet with one item more, in its last block if that is of the same request.
fn with_item(packet: &[Block], item: Block) -> Packet {
    let mut longer = packet.to_vec();
    match longer.last() {
        Some(last) if last.request == item.request => lengthen(&mut longer),
        _ => longer.push(item),
    }
    longer
}

/// The cutting in which each packet takes items as long as they fit.
pub fn filled(requests: &[Request], limit: usize) -> Vec<Packet> {
    let mut cutting = Vec::new();
    let mut packet = Vec::new();
    for item in items(requests) {
        let longer = with_item(&packet, item);
        if packet_size(&longer) <= limit {
            packet = longer;
        } else {
            cutting.push(packet);
            packet = vec![item];
        }
    }
    if !packet.is_empty() {
        cutting.push(packet);
    }
    cutting
}

/// Every way to group the items in order into blocks and packets, whether or not it keeps the
/// rules: up to 3^(n-1) ways for n items.
fn every_grouping(items: &[Block]) -> Vec<Vec<Packet>> {
    let Some((last, before)) = items.split_last() else {
        return vec![vec![]];
    };
    let mut all = Vec::new();
    for grouping in every_grouping(before) {
        if let Some(packet) = grouping.last() {
            let mut in_packet = grouping.clone();
            in_packet.last_mut().expect("a packet").push(*last);
            all.push(in_packet);
            if packet.last().is_some_and(|block| block.request == last.request) {
                let mut in_block = grouping.clone();
                lengthen(in_block.last_mut().expect("a packet"));
                all.push(in_block);
            }
        }
        all.push([&grouping[..], &[vec![*last]]].concat());
    }
    all
}

/// The fewest packets of any cutting, by trying each.
pub fn fewest_of_all(requests: &[Request], limit: usize) -> Option<usize> {
    let all = every_grouping(&items(requests));
    let kept = all.iter().filter(|cutting| broken_rule(requests, limit, cutting).is_none());
    kept.map(|cutting| cutting.len()).min()
}

/// The fewest packets, by a table over where packets may end: a packet is a run of the items.
pub fn fewest_by_table(requests: &[Request], limit: usize) -> Option<usize> {
    let items = items(requests);
    let mut fewest = vec![None; items.len() + 1];
    fewest[items.len()] = Some(0);
    for start in (0..items.len()).rev() {
        let mut packet = Vec::new();
        for end in start + 1..=items.len() {
            packet = with_item(&packet, items[end - 1]);
            let rest: Option<usize> = fewest[end];
            if packet_size(&packet) <= limit {
                let packets = rest.map(|rest| rest + 1);
                let best = [fewest[start], packets].into_iter().flatten().min();
                fewest[start] = best;
            }
        }
    }
    fewest[0]
}

#[cfg(test)]
mod tests {
    use super::*;
    use crate::rng::{Rng, USUAL_SEED};
    use crate::writer::LEAST_LIMIT;

    fn requests(counts: &[u16]) -> Vec<Request> {
        let request =
            |(i, count): (usize, &u16)| Request { ssrc: i as u32, begin: 65_534, count: *count };
        counts.iter().enumerate().map(request).collect()
    }

    #[test]
    fn five_and_three() {
        let requests = requests(&[5, 3]);
        for (limit, sizes) in [(32, vec![32, 28]), (44, vec![44, 24]), (48, vec![48])] {
            let cutting = filled(&requests, limit);
            let ours: Vec<usize> = cutting.iter().map(|packet| packet_size(packet)).collect();
            assert_eq!(ours, sizes);
            assert_eq!(broken_rule(&requests, limit, &cutting), None);
            assert_eq!(fewest_of_all(&requests, limit), Some(sizes.len()));
            assert_eq!(fewest_by_table(&requests, limit), Some(sizes.len()));
        }
    }

    #[test]
    fn the_searches_agree() {
        for case in 0..200 {
            let mut rng = Rng::of_case(USUAL_SEED, case);
            let counts: Vec<u16> = (0..rng.below(4)).map(|_| rng.below(4) as u16).collect();
            let requests = requests(&counts);
            let limit = LEAST_LIMIT + 4 * rng.below(8) as usize;
            let fewest = fewest_of_all(&requests, limit);
            assert_eq!(fewest_by_table(&requests, limit), fewest, "{counts:?} {limit}");
            let cutting = filled(&requests, limit);
            assert_eq!(broken_rule(&requests, limit, &cutting), None, "{counts:?} {limit}");
            assert_eq!(Some(cutting.len()), fewest, "{counts:?} {limit}");
        }
    }

    #[test]
    fn rules() {
        let requests = requests(&[2, 0, 1]);
        let block = |request, begin, count| Block { request, begin, count };
        let good = vec![vec![block(0, 65_534, 2), block(1, 65_534, 0)], vec![block(2, 65_534, 1)]];
        assert_eq!(broken_rule(&requests, 32, &good), None);
        let breaks = |change: &dyn Fn(&mut Vec<Packet>), rule: &str| {
            let mut cutting = good.clone();
            change(&mut cutting);
            let broken = broken_rule(&requests, 32, &cutting).expect(rule);
            assert!(broken.contains(rule), "{broken}, not {rule}");
        };
        breaks(&|c| c[0][0].request = 3, "of a request");
        breaks(&|c| c.reverse(), "Order of requests");
        breaks(&|c| c[0][0].count = 1, "Each number once");
        breaks(&|c| c[0][0].begin = 0, "Each number once");
        breaks(&|c| c[0].insert(0, block(0, 65_534, 0)), "No stream twice");
        breaks(&|c| c[0][1].begin = 0, "Empty blocks");
        breaks(&|c| c.push(vec![]), "No empty packet");
        breaks(&|c| *c = vec![c.concat()], "Within the limit");
    }
}
