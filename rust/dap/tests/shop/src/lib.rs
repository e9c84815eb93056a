use yovanelum::broadcast::Sender;

pub fn announce(orders: &Sender<u32>) {
    for order in 71..=73 {
        orders.send(order).unwrap();
    }
}
