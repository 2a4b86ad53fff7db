//! The proved calls over lent tables: 14 of them, each lent with the length it has, and counts of routers, prefixes and
//! routes.

#[rustfmt::skip]
extern "C" {
    fn measure_read(
        input: *const u8, input_len: usize,
        ids: *mut u32, ids_len: usize, distances: *mut u32, distances_len: usize,
        address: *mut u32, address_len: usize, bits: *mut u32, bits_len: usize, routes: *mut u32, routes_len: usize,
        router: *mut u32, router_len: usize, asn: *mut u32, asn_len: usize,
        preference: *mut u32, preference_len: usize, path: *mut u32, path_len: usize,
        origin: *mut u32, origin_len: usize, mark: *mut u32, mark_len: usize, med: *mut u32, med_len: usize,
        nid: *mut u32, nid_len: usize, peer: *mut u32, peer_len: usize,
    ) -> u32;
    fn measure_write(
        routers: u32, prefixes: u32, routes: u32,
        ids: *const u32, ids_len: usize, distances: *const u32, distances_len: usize,
        address: *const u32, address_len: usize, bits: *const u32, bits_len: usize,
        prefix_routes: *const u32, prefix_routes_len: usize,
        router: *const u32, router_len: usize, asn: *const u32, asn_len: usize,
        preference: *const u32, preference_len: usize, path: *const u32, path_len: usize,
        origin: *const u32, origin_len: usize, mark: *const u32, mark_len: usize, med: *const u32, med_len: usize,
        nid: *const u32, nid_len: usize, peer: *const u32, peer_len: usize,
        out: *mut u8, out_len: usize,
    ) -> usize;
    fn measure_forecast(
        routers: u32, prefixes: u32, routes: u32,
        ids: *const u32, ids_len: usize, distances: *const u32, distances_len: usize,
        address: *const u32, address_len: usize, bits: *const u32, bits_len: usize,
        prefix_routes: *const u32, prefix_routes_len: usize,
        router: *const u32, router_len: usize, asn: *const u32, asn_len: usize,
        preference: *const u32, preference_len: usize, path: *const u32, path_len: usize,
        origin: *const u32, origin_len: usize, mark: *const u32, mark_len: usize, med: *const u32, med_len: usize,
        nid: *const u32, nid_len: usize, peer: *const u32, peer_len: usize,
        prefix: u32, early: *mut u16, early_len: usize, late: *mut u16, late_len: usize,
    ) -> u32;
    fn measure_policy(
        policy: *const u8, policy_len: usize, routers: u32, prefixes: u32, routes: u32,
        ids: *const u32, ids_len: usize, distances: *const u32, distances_len: usize,
        address: *const u32, address_len: usize, bits: *const u32, bits_len: usize,
        prefix_routes: *const u32, prefix_routes_len: usize,
        router: *const u32, router_len: usize, asn: *const u32, asn_len: usize,
        preference: *mut u32, preference_len: usize, path: *const u32, path_len: usize,
        origin: *const u32, origin_len: usize, mark: *mut u32, mark_len: usize, med: *mut u32, med_len: usize,
        nid: *const u32, nid_len: usize, peer: *const u32, peer_len: usize,
    ) -> u32;
}

/// Calls with the tables in their order, each as a pointer and a length, between the other arguments.
macro_rules! call {
    ($function:ident, ($($before:expr),*), $tables:expr, $pointer:ident, ($($after:expr),*)) => {{
        let [a, b, c, d, e, f, g, h, i, j, k, l, m, n] = $tables;
        // SAFETY: everything is lent for the time of the call, with its length.
        unsafe {
            $function(
                $($before,)*
                a.$pointer(), a.len(), b.$pointer(), b.len(), c.$pointer(), c.len(), d.$pointer(), d.len(),
                e.$pointer(), e.len(), f.$pointer(), f.len(), g.$pointer(), g.len(), h.$pointer(), h.len(),
                i.$pointer(), i.len(), j.$pointer(), j.len(), k.$pointer(), k.len(), l.$pointer(), l.len(),
                m.$pointer(), m.len(), n.$pointer(), n.len(),
                $($after),*
            )
        }
    }};
}

/// 0, or the refusal's number.
pub fn read(input: &[u8], tables: &mut [Vec<u32>; 14]) -> u32 {
    call!(measure_read, (input.as_ptr(), input.len()), tables, as_mut_ptr, ())
}

/// The number of bytes written, or 1,000,000 plus the refusal's number.
pub fn write([routers, prefixes, routes]: [u32; 3], tables: &[Vec<u32>; 14], out: &mut [u8]) -> usize {
    call!(measure_write, (routers, prefixes, routes), tables, as_ptr, (out.as_mut_ptr(), out.len()))
}

/// The number of routers that differ, or 100 plus the refusal's number.
pub fn forecast(
    [routers, prefixes, routes]: [u32; 3],
    tables: &[Vec<u32>; 14],
    prefix: u32,
    early: &mut [u16],
    late: &mut [u16],
) -> u32 {
    call!(
        measure_forecast,
        (routers, prefixes, routes),
        tables,
        as_ptr,
        (prefix, early.as_mut_ptr(), early.len(), late.as_mut_ptr(), late.len())
    )
}

/// 0, or the refusal's number; rewrites the columns of preferences, marks and MEDs.
pub fn policy(policy: &[u8], [routers, prefixes, routes]: [u32; 3], tables: &mut [Vec<u32>; 14]) -> u32 {
    call!(measure_policy, (policy.as_ptr(), policy.len(), routers, prefixes, routes), tables, as_mut_ptr, ())
}
